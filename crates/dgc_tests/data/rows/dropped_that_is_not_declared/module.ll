define void @f() {
entry:
  call void @llvm.assume(i1 true)
  ret void
}
