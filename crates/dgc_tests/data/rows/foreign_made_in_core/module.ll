declare i32 @putchar(i32)
define i32 @f(i32 %c) {
entry:
  %r = call i32 @putchar(i32 %c)
  ret i32 %r
}
