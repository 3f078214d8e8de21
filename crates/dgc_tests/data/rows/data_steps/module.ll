@.str = private constant [4 x i8] c"%d\0A\00"
declare i32 @printf(ptr noundef, ...) #1
define i32 @f(i32 %x) gc "shadow-stack" {
entry:
  %r = call i32 (ptr, ...) @printf(ptr getelementptr (i8, ptr @.str, i64 0), i32 %x, ptr @.str)
  ret i32 %r
}
