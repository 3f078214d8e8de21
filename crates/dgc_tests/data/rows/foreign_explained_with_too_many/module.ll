declare void @tick()
define void @f() {
entry:
  call void @tick(i64 1)
  ret void
}
