declare i64 @llvm.smax.i64(i64, i64)
declare i64 @next()
define i64 @f() {
entry:
  %m = call i64 @llvm.smax.i64(i64 1, i64 2)
  %a = call i64 @next()
  %s = add i64 %m, %a
  ret i64 %s
}
