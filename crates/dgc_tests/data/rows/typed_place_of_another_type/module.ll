define void @f(ptr %p) {
entry:
  %v = load i64, i32* %p
  ret void
}
