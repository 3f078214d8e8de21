declare double @llvm.sqrt.f64(double)
define double @f(double) {
  call double @llvm.sqrt.f64(double %0)
  %3 = fneg double %2
  ret double %3
}
