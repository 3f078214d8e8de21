declare void @free(ptr)
define void @f() gc "shadow-stack" {
entry:
  call void @free(ptr null)
  ret void
}
