@count = external global i32
@where = external global ptr
define i32 @f(i32 %x) gc "shadow-stack" {
entry:
  %c = icmp eq ptr @count, null
  %n = zext i1 %c to i32
  ret i32 %n
}
