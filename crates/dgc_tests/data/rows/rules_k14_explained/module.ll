%Node = type { i64, ptr }
declare ptr @dg_alloc(i32)
define ptr @make() gc "shadow-stack" {
entry:
  %a = call ptr @dg_alloc(i32 0)
  ret ptr %a
}
