declare void @dg_safepoint()
define void @wait() {
entry:
  call void @dg_safepoint()
  ret void
}
