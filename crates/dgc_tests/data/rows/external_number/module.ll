@x = external global i32, align 4
declare void @take(ptr)
define void @f() gc "shadow-stack" {
entry:
  call void @take(ptr @x)
  ret void
}
