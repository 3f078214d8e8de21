declare i32 @putchar(i32)
define void @f() {
entry:
  ret void
}
