declare double @llvm.fabs.f64(double)
define void @f() {
entry:
  ret void
}
