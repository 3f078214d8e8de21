declare half @llvm.fabs.f16(half)
define void @f() {
entry:
  ret void
}
