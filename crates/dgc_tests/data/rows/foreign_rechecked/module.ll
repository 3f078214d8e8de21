declare i32 @putchar(i32)
declare void @tick()
define i32 @f(i32 %c) {
entry:
  %r = call i32 @putchar(i32 %c)
  ret i32 %r
}
