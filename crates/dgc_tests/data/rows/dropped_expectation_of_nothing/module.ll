declare i64 @llvm.expect.i64(i64, i64)
define i64 @f() {
entry:
  %v = call i64 @llvm.expect.i64()
  ret i64 %v
}
