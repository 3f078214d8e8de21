declare double @llvm.pow.f64(double)
define double @f(double %a, float %b) {
entry:
  %v = call double @llvm.pow.f64(double %a)
  ret double %v
}
