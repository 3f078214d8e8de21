define void @wait() {
entry:
  ret void
}
define void @f() {
entry:
  call void @wiat()
  ret void
}
