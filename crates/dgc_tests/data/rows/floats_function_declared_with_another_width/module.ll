declare double @llvm.sqrt.f64(float)
define double @f(double %a, float %b) {
entry:
  %v = call double @llvm.sqrt.f64(float %b)
  ret double %v
}
