@g = global i64 1
@d = private unnamed_addr constant [6 x i8] c"hello\00", align 1
declare i32 @puts(ptr)
define i64 @f() gc "shadow-stack" {
entry:
  %r = call i32 @puts(ptr @d)
  %v = load i64, ptr @g
  ret i64 %v
}
