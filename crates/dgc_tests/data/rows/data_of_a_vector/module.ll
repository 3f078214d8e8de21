@d = constant <2 x i64> <i64 1, i64 2>
declare void @take(ptr)
define void @f() gc "shadow-stack" {
entry:
  call void @take(ptr @d)
  ret void
}
