@d = constant { i64, [2 x i8] } { i64 1, [2 x i8] c"ab" }
declare void @take(ptr)
define void @f() gc "shadow-stack" {
entry:
  call void @take(ptr @d)
  ret void
}
