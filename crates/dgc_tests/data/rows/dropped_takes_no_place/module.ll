declare void @llvm.assume(i1)
declare void @dg_unknown()
define void @f() {
entry:
  call void @llvm.assume(i1 true)
  call void @dg_unknown()
  ret void
}
