define void @f(ptr %p) {
entry:
  %s = alloca i64, ptr %p
  ret void
}
