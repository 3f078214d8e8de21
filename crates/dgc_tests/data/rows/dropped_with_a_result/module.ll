declare void @llvm.assume(i1)
define void @f() {
entry:
  %v = call i1 @llvm.assume(i1 true)
  ret void
}
