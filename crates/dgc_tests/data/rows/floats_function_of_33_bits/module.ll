declare double @llvm.fabs.f33(double)
define void @f() {
entry:
  %v = call double @llvm.fabs.f33(double 1.0)
  ret void
}
