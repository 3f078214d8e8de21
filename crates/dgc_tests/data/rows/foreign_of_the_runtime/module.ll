declare void @dg_safepoint()
define void @f() {
entry:
  ret void
}
