define void @one() {
entry:
  ret void
}
