%Node = type { i64, %Node* }
declare void @llvm.assume(i1)
declare i64 @llvm.expect.i64(i64, i64)
declare void @tick(i64)
define void @f(i64 %n) {
entry:
  call void @llvm.assume(i1 true)
  %v = call i64 @llvm.expect.i64(i64 %n, i64 7)
  ret void
}
