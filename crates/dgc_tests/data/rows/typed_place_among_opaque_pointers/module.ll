define void @f(ptr %p) {
entry:
  %v = load i64, i64* %p
  ret void
}
