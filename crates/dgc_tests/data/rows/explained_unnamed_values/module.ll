%Node = type { i64, ptr }
define i64 @f(ptr %0) gc "shadow-stack" {
  %2 = getelementptr %Node, ptr %0, i32 0, i32 0
  %3 = load i64, ptr %2
  ret i64 %3
}
