declare double @llvm.fabs.f16(double)
define void @f() {
entry:
  %v = call double @llvm.fabs.f16(double 1.0)
  ret void
}
