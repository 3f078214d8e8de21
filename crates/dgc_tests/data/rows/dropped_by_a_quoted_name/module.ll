declare void @llvm.assume(i1)
define void @f() {
entry:
  call void @"llvm.assume"(i1 true)
  ret void
}
