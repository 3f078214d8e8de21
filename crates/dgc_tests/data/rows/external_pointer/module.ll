@x = external global ptr, align 8
declare void @take(ptr)
define void @f() gc "shadow-stack" {
entry:
  call void @take(ptr @x)
  ret void
}
