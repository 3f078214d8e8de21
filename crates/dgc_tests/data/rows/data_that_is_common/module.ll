@d = common hidden local_unnamed_addr global [2 x i64] zeroinitializer, align 16
declare void @take(ptr)
define void @f() gc "shadow-stack" {
entry:
  call void @take(ptr @d)
  ret void
}
