%File = type opaque
@x = external global %File
declare void @take(ptr)
define void @f() gc "shadow-stack" {
entry:
  call void @take(ptr @x)
  ret void
}
