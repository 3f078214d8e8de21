declare i32 @putchar(i32)
define void @f() {
entry:
  %r = call i32 (i32) @putchar(i32 65)
  ret void
}
