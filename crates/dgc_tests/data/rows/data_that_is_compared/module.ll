@d = private unnamed_addr constant [6 x i8] c"hello\00", align 1
define void @f() gc "shadow-stack" {
entry:
  %c = icmp eq ptr @d, null
  ret void
}
