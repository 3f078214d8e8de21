%Node = type { i64, ptr }
define i64 @second(ptr %n) gc "shadow-stack" {
entry:
  %f = getelementptr %Node, ptr %n, i32 0, i32 1
  %x = load ptr, ptr %f
  %p = getelementptr %Node, ptr %x, i32 0, i32 0
  %v = load i64, ptr %p
  ret i64 %v
}
