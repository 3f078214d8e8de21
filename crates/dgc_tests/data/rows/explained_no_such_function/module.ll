declare void @other()
define void @ask() {
entry:
  call void @other()
  ret void
}
