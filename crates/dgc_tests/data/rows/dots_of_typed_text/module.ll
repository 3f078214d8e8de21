@.str = private constant [4 x i8] c"%d\0A\00"
declare i32 @printf(i8*, ...)
define void @f(i32 %x) gc "shadow-stack" {
entry:
  %r = call i32 (i8*, ...) @printf(i8* getelementptr inbounds ([4 x i8], [4 x i8]* @.str, i64 0, i64 0), i32 %x)
  ret void
}
