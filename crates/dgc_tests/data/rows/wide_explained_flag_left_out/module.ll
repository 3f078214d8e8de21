declare i64 @llvm.cttz.i64(i64)
define i64 @f(i64 %a) {
entry:
  %v = call i64 @llvm.cttz.i64(i64 %a)
  ret i64 %v
}
