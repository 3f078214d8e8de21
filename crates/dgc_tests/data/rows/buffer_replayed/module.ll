@count = external global i32
@where = external global ptr
define i32 @f(i32 %x) gc "shadow-stack" {
entry:
  %a = alloca [4 x i32]
  %p = getelementptr [4 x i32], ptr %a, i64 0, i64 1
  store i32 5, ptr %p
  %n = load i32, ptr %p
  ret i32 %n
}
