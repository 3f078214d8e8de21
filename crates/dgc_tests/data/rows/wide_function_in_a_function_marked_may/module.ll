declare void @dg_safepoint()
declare i64 @llvm.umax.i64(i64, i64)
define i64 @f(i64 %a) gc "shadow-stack" {
entry:
  %m = call i64 @llvm.umax.i64(i64 %a, i64 3)
  call void @dg_safepoint()
  ret i64 %m
}
