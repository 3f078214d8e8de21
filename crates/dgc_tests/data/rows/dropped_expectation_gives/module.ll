declare i64 @llvm.expect.i64(i64, i64)
define i64 @f(i64 %n) {
entry:
  %v = call i64 @llvm.expect.i64(i64 %n, i64 7)
  ret i64 %v
}
