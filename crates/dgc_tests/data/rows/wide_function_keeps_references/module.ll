%Node = type { i64, ptr }
declare i64 @llvm.umax.i64(i64, i64)
define i64 @f(ptr %n) gc "shadow-stack" {
entry:
  %p = getelementptr %Node, ptr %n, i32 0, i32 0
  %a = load i64, ptr %p
  %m = call i64 @llvm.umax.i64(i64 %a, i64 3)
  %b = load i64, ptr %p
  %v = add i64 %m, %b
  ret i64 %v
}
