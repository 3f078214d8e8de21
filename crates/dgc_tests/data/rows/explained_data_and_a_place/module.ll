%Node = type { i64 }
@d = private unnamed_addr constant [6 x i8] c"hello\00", align 1
declare i32 @printf(ptr, ...)
define i64 @f(ptr %n) gc "shadow-stack" {
entry:
  %r = call i32 (ptr, ...) @printf(ptr getelementptr inbounds ([6 x i8], ptr @d, i64 0, i64 0), ptr bitcast (ptr @d to ptr))
  %p = getelementptr %Node, ptr %n, i32 0, i32 0
  %v = load i64, ptr %p
  ret i64 %v
}
