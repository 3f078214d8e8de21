declare void @llvm.assume(i1)
declare void @tick()
define void @f() {
entry:
  call void @llvm.assume(i1 true)
  call void @tick()
  ret void
}
