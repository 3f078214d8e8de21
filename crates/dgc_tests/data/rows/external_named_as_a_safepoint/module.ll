@dg_safepoint = external global i32
define void @f() {
entry:
  call void @dg_safepoint()
  ret void
}
