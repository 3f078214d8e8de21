%A = type { i64, ptr }
declare ptr @dg_alloc(i32)
declare i32 @putchar(i32)
define void @f() gc "shadow-stack" {
entry:
  %r = call i32 @putchar(i32 65)
  %x = call ptr @dg_alloc(i32 9)
  br label %next
next:
  ret void
}
