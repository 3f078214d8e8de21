@.str = private constant [4 x i8] c"%d\0A\00"
declare i32 @printf(ptr noundef, ...) #1
define void @f(i32 %x) gc "shadow-stack" {
entry:
  call i32 (ptr, ...) @printf(ptr @.str, i32 %x)
  ret void
}
