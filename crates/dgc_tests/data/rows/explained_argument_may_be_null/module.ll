%Node = type { i64, ptr }
define i64 @value(ptr %n) gc "shadow-stack" {
entry:
  %p = getelementptr %Node, ptr %n, i32 0, i32 0
  %v = load i64, ptr %p
  ret i64 %v
}
define i64 @of(ptr %x) gc "shadow-stack" {
entry:
  %v = call i64 @value(ptr %x)
  ret i64 %v
}
