%Node = type { i64, ptr }
declare ptr @dg_alloc(i32)
define ptr @make() gc "shadow-stack" {
entry:
  %x = call ptr @dg_alloc(i32 0)
  ret ptr %x
}
