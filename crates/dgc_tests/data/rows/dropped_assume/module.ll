declare void @llvm.assume(i1 noundef)
define void @f(i64 %n) {
entry:
  %c = icmp eq i64 %n, 0
  call void @llvm.assume(i1 %c)
  ret void
}
