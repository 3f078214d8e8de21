%"my A" = type { i64 }
declare ptr @dg_alloc(i32)
define void @f() gc "shadow-stack" {
entry:
  %x = call ptr @dg_alloc(i32 5)
  br label %next
next:
  ret void
}
