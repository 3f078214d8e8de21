%Node = type { i64, ptr }
define ptr @f(ptr %p, i64 %n) {
entry:
  br label %next
next:
  ret ptr %p
}
