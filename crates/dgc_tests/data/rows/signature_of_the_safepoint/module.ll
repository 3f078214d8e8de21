declare void @dg_safepoint()
define void @f() {
entry:
  call void () @dg_safepoint()
  ret void
}
