%Node = type { i64, ptr }
declare void @dg_safepoint()
define ptr @give(ptr %n) gc "shadow-stack" {
entry:
  call void @dg_safepoint()
  ret ptr %n
}
