define void @other() {
entry:
  ret void
}
define void @ask() {
entry:
  call void @other()
  ret void
}
