declare void @llvm.assume(i1)
define void @f() {
entry:
  %v = add i64 1, 2
  call void @llvm.assume(i1 true)
  ret void
}
