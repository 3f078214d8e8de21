declare void @free(i8*)
define void @f() gc "shadow-stack" {
entry:
  call void @free(i8* null)
  ret void
}
