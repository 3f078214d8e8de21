%Node = type { i64, ptr }
define ptr @give(i64 %b) gc "shadow-stack" {
entry:
  ret ptr %b
}
