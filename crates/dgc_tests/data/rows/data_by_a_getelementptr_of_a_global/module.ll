@g = global i64 1
declare void @take(ptr)
define void @f() gc "shadow-stack" {
entry:
  call void @take(ptr getelementptr (i64, ptr @g, i64 0))
  ret void
}
