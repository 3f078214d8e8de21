declare double @llvm.fabs.f80(double)
define void @f() {
entry:
  %v = call double @llvm.fabs.f80(double 1.0)
  ret void
}
