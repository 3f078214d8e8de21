@d = private unnamed_addr constant [6 x i8] c"hello\00", align 1
declare void @take(ptr)
define void @f() gc "shadow-stack" {
entry:
  call void @take(ptr @d, ptr @d)
  ret void
}
