@count = external global i32
@where = external global ptr
define i32 @f(i32 %x) gc "shadow-stack" {
entry:
  %a = alloca [4 x i32]
  %s = alloca i32
  store i32 5, ptr %s
  store i32 6, ptr %a
  %n = load i32, ptr %s
  ret i32 %n
}
