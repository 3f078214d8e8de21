declare i64 @llvm.expect.i64(i64, i64)
define void @f(i64 %n) {
entry:
  call i64 @llvm.expect.i64(i64 %n, i64 0)
  ret void
}
