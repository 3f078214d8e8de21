declare void @llvm.assume(i1)
define void @f(i64 %0) {
entry:
  %1 = add i64 %0, 1
  call void @llvm.assume(i1 true)
  %2 = add i64 %1, 1
  ret void
}
