@d = constant [1 x i64] [i64 sub (i64 ptrtoint (ptr @f to i64), i64 ptrtoint (ptr @take to i64))]
declare void @take(ptr)
define void @f() gc "shadow-stack" {
entry:
  call void @take(ptr @d)
  ret void
}
