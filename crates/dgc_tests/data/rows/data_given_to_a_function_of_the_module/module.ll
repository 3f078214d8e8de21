%Node = type { i64 }
@d = private unnamed_addr constant [6 x i8] c"hello\00", align 1
define void @g(ptr %a) gc "shadow-stack" {
entry:
  ret void
}
define void @f() gc "shadow-stack" {
entry:
  call void @g(ptr @d)
  ret void
}
