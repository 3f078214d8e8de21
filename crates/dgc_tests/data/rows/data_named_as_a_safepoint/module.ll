@dg_safepoint = constant [2 x i8] c"ab"
define void @f() {
entry:
  call void @dg_safepoint()
  ret void
}
