@x = external global i64, align 8 #2
declare void @take(ptr)
define void @f() gc "shadow-stack" {
entry:
  call void @take(ptr @x)
  ret void
}
