declare i64 @llvm.umin.i64(i64, i64)
define i64 @f(i64 %a) {
entry:
  %v = call i64 @llvm.umin.i64(i64 %a, i64 12)
  ret i64 %v
}
