define void @poll() {
entry:
  call void @dg_safepoint()
  ret void
}
