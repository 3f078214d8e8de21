declare double @llvm.fabs(double)
define void @f() {
entry:
  %v = call double @llvm.fabs(double 1.0)
  ret void
}
