%Node = type { i64, ptr }
define ptr @second(ptr %n) gc "shadow-stack" {
entry:
  %c = icmp eq ptr %n, null
  br i1 %c, label %none, label %some
none:
  ret ptr null
some:
  %f = getelementptr %Node, ptr %n, i32 0, i32 1
  %x = load ptr, ptr %f
  ret ptr %x
}
