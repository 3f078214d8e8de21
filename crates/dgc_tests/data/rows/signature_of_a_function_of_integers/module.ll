declare i64 @llvm.smax.i64(i64, i64)
define i64 @f(i64 %a) {
entry:
  %r = call i64 (i64, i64) @llvm.smax.i64(i64 %a, i64 1)
  ret i64 %r
}
