%Node = type { i64, ptr }
define ptr @second(ptr %n) gc "shadow-stack" {
entry:
  %f = getelementptr %Node, ptr %n, i32 0, i32 1
  %x = load ptr, ptr %f
  ret ptr %x
}
