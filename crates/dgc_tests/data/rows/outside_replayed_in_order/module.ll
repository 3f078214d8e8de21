@count = external global i32
@where = external global ptr
define i32 @f(i32 %x) gc "shadow-stack" {
entry:
  %p = load ptr, ptr @where
  %n = load i32, ptr %p
  %c = icmp ult ptr %p, @where
  %d = zext i1 %c to i32
  %e = add i32 %n, %d
  ret i32 %e
}
