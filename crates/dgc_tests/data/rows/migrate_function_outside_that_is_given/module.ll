declare void @ended()
declare void @atexit(ptr)
define void @f() gc "shadow-stack" {
entry:
  call void @atexit(ptr @ended)
  ret void
}
