define void @f(ptr %p) {
entry:
  %v = load i64, ptr* %p
  ret void
}
