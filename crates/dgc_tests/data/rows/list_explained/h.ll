define void @h() {
entry:
  %v = add i64 1 2
  ret void
}
