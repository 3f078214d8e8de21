@x = external global [0 x i8]
declare void @take(ptr)
define void @f() gc "shadow-stack" {
entry:
  call void @take(ptr getelementptr ([0 x i8], ptr @x, i64 0, i64 3))
  ret void
}
