declare i32 @putchar(i32)
define void @f(i32 %n) {
entry:
  br label %b
b:
  %r = call i32 @putchar(i32 %n)
  ret void
}
