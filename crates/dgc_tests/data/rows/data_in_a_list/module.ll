@d = private unnamed_addr constant [6 x i8] c"hello\00", align 1
declare i32 @puts(ptr)
define i32 @f(i32 %x) gc "shadow-stack" {
entry:
  %r = call i32 @puts(ptr @d)
  ret i32 %r
}
