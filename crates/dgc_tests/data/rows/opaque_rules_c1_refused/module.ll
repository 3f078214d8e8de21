%Node = type { i64, ptr }
declare ptr @dg_alloc(i32)
define void @new() gc "shadow-stack" {
entry:
  %a = call ptr @dg_alloc(i32 0)
  br label %next
next:
  ret void
}
