%A = type { i64, ptr }
declare ptr @dg_alloc(i32)
define void @f() gc "shadow-stack" {
entry:
  %x = call ptr @dg_alloc(i32 0)
  br label %next
next:
  ret void
}
