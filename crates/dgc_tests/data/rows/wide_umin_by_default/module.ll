declare i64 @llvm.umin.i64(i64, i64)
define i64 @f(i64 %a, i64 %b) {
entry:
  %v = call i64 @llvm.umin.i64(i64 %a, i64 9)
  ret i64 %v
}
