@d = private unnamed_addr constant [6 x i8] c"hello\00", align 1
declare i32 @puts(ptr)
declare void @take(ptr)
define void @f() gc "shadow-stack" {
entry:
  call void @take(ptr @d)
  %r = call i32 @puts(ptr @d)
  ret void
}
