%Node = type { i64, ptr }
declare ptr @dg_alloc(i64)
define void @new() gc "shadow-stack" {
entry:
  %a = call ptr @dg_alloc(i64 0)
  ret void
}
