%Node = type { i64, ptr }
define i64 @wait(ptr %n) gc "shadow-stack" {
entry:
  %f = getelementptr %Node, ptr %n, i32 0, i32 1
  %x = load ptr, ptr %f
  br label %test
test:
  %none = icmp eq ptr %x, null
  br i1 %none, label %out, label %loop
loop:
  %p = getelementptr %Node, ptr %x, i32 0, i32 0
  %v = load i64, ptr %p
  %end = icmp eq i64 %v, 0
  br i1 %end, label %out, label %loop
out:
  ret i64 0
}
