@count = external global i32
@where = external global ptr
define i32 @f(i32 %x) gc "shadow-stack" {
entry:
  %a = alloca i32, i32 %x
  %c = icmp eq ptr %a, null
  %n = zext i1 %c to i32
  ret i32 %n
}
