define void @idle() {
entry:
  ret void
}
