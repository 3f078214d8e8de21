declare double @llvm.fabs.f064(double)
define void @f() {
entry:
  %v = call double @llvm.fabs.f064(double 1.0)
  ret void
}
