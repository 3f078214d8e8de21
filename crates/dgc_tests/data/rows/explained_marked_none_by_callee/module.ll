declare void @dg_safepoint()
define void @wait() {
entry:
  call void @dg_safepoint()
  ret void
}
define void @twice() {
entry:
  call void @wait()
  call void @wait()
  ret void
}
