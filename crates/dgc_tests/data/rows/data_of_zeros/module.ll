@d = dso_local global [64 x i8] zeroinitializer, align 16
declare void @take(ptr)
define void @f() gc "shadow-stack" {
entry:
  call void @take(ptr @d)
  ret void
}
