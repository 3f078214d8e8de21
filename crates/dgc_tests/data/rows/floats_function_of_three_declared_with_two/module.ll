declare double @llvm.fma.f64(double, double)
define double @f(double %a, float %b) {
entry:
  %v = call double @llvm.fma.f64(double %a, double %a)
  ret double %v
}
