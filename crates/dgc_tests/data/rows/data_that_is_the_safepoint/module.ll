declare void @dg_safepoint()
declare void @atexit(ptr)
define void @f() gc "shadow-stack" {
entry:
  call void @atexit(ptr @dg_safepoint)
  ret void
}
