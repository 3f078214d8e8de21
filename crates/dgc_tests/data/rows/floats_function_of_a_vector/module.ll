declare double @llvm.fabs.v2f64(double)
define void @f() {
entry:
  %v = call double @llvm.fabs.v2f64(double 1.0)
  ret void
}
