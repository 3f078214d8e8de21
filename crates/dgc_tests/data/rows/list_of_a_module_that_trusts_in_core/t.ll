declare void @tick()
define void @f() {
entry:
  ret void
}
