@count = external global i32
@where = external global ptr
define i32 @f(i32 %x) gc "shadow-stack" {
entry:
  %n = load i32, ptr @count
  ret i32 %n
}
