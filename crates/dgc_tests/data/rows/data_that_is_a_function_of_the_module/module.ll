declare void @atexit(ptr)
define void @ended() {
entry:
  ret void
}
define void @f() gc "shadow-stack" {
entry:
  call void @atexit(ptr @ended)
  ret void
}
