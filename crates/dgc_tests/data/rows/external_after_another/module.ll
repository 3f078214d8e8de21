@x = external global i32 @y = external global i32
declare void @take(ptr)
define void @f() gc "shadow-stack" {
entry:
  call void @take(ptr @y)
  ret void
}
