declare double @llvm.sqrt.f64(double, double)
define double @f(double %a, float %b) {
entry:
  %v = call double @llvm.sqrt.f64(double %a, double %a)
  ret double %v
}
