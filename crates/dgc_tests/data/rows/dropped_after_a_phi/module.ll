declare void @llvm.assume(i1)
define void @f() {
entry:
  br label %b
b:
  %v = phi i64 [ 1, %entry ]
  call void @llvm.assume(i1 true)
  ret void
}
