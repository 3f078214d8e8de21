declare double @llvm.sqrt.f64(double)
define double @f(double %a, float %b) {
entry:
  %v = call double @llvm.sqrt.f64(double %b)
  ret double %v
}
