declare i32 @putchar(i32)
define void @f() {
entry:
  %r = call i32 @putchar(i32 65)
  ret void
}
define void @g() {
entry:
  %r = call i32 @putchar(i32 65)
  ret void
}
