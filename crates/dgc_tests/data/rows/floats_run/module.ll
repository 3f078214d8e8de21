declare double @llvm.fabs.f64(double)
define double @f(double %a, double %b) {
entry:
  %v = fdiv double %a, %b
  %w = call double @llvm.fabs.f64(double %v)
  ret double %w
}
define float @g() {
entry:
  ret float -5.0e-01
}
