@d = private unnamed_addr constant [6 x i8] c"hello\00", align 1
@x = external global ptr
@g = global i64 0
declare i32 @puts(ptr)
declare i32 @printf(ptr, ...)
define void @h(ptr %a) gc "shadow-stack" {
entry:
  ret void
}
define i32 @f(i32 %x) gc "shadow-stack" {
entry:
  ret i32 %x
}
