@d = private unnamed_addr constant [6 x i8] c"hello\00", align 1
@e = constant [1 x i8] c"r"
declare i64 @open(ptr, ptr, i32)
define i64 @f() gc "shadow-stack" {
entry:
  %r = call i64 @open(ptr @d, ptr @e, i32 7)
  ret i64 %r
}
