%Node = type { i64, ptr }
define ptr @same(ptr %n) {
entry:
  ret ptr %n
}
