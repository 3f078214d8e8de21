define void @f(i8* %p) {
entry:
  %v = load i64, ptr %p
  ret void
}
