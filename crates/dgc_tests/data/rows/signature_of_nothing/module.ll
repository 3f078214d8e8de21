declare void @tick()
define void @f() {
entry:
  call void () @tick()
  ret void
}
