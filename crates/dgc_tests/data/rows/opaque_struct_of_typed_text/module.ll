%File = type opaque
@x = external global %File*
declare void @take(%File**)
define void @f() gc "shadow-stack" {
entry:
  call void @take(%File** @x)
  ret void
}
