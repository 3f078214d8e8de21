@.str = private constant [4 x i8] c"%d\0A\00"
declare i32 @printf(ptr, i32, ...)
define void @f(i32 %x) gc "shadow-stack" {
entry:
  %r = call i32 (ptr, i32, ...) @printf(ptr @.str)
  ret void
}
