@d = private unnamed_addr constant [6 x i8] c"hello\00", align 1
@e = constant [2 x ptr] [ptr @d, ptr null]
declare void @take(ptr)
define void @f() gc "shadow-stack" {
entry:
  call void @take(ptr @e)
  ret void
}
