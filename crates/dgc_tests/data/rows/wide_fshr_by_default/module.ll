declare i64 @llvm.fshr.i64(i64, i64, i64)
define i64 @f(i64 %a, i64 %b) {
entry:
  %v = call i64 @llvm.fshr.i64(i64 %a, i64 %b, i64 %a)
  ret i64 %v
}
