declare void @ended()
declare void @keep(i8*)
@x = external global i8
define void @f() gc "shadow-stack" {
entry:
  call void @keep(i8* @x)
  ret void
}
