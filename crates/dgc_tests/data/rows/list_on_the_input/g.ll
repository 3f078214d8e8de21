declare void @dg_safepoint()
define void @g() {
entry:
  call void @dg_safepoint()
  ret void
}
