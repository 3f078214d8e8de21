define void @f(i64 %x, ...) {
entry:
  ret void
}
