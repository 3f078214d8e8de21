declare double @llvm.fabs.f64.x(double)
define void @f() {
entry:
  %v = call double @llvm.fabs.f64.x(double 1.0)
  ret void
}
