@.str = private constant [4 x i8] c"%d\0A\00"
declare i32 @printf(ptr noundef, ...) #1
define i32 @f(i32 %x) gc "shadow-stack" {
entry:
  %r = call i32 (ptr, ...) @printf(ptr @.str, i32 %x)
  %s = call i32 (ptr, ...) @printf(ptr @.str, i32 %r, ptr @.str)
  %t = sub i32 %s, %r
  ret i32 %t
}
