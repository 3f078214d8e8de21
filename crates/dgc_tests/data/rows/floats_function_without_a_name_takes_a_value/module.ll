declare double @llvm.fabs.f64(double)
define double @f(double) {
  call double @llvm.fabs.f64(double %0)
  %3 = call double @llvm.fabs.f64(double %0)
  ret double %3
}
