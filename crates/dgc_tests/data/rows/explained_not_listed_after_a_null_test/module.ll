%Node = type { i64, ptr }
define i64 @value(ptr %n) gc "shadow-stack" {
entry:
  %f = getelementptr %Node, ptr %n, i32 0, i32 1
  %x = load ptr, ptr %f
  %none = icmp eq ptr %x, null
  br i1 %none, label %empty, label %full
full:
  %p = getelementptr %Node, ptr %x, i32 0, i32 0
  %v = load i64, ptr %p
  ret i64 %v
empty:
  %same = icmp eq ptr %x, %n
  br i1 %same, label %both, label %last
both:
  ret i64 1
last:
  ret i64 0
}
