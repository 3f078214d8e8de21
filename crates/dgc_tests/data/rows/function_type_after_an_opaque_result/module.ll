define void @f(ptr %p) {
entry:
  call ptr (i64) @f(i64 0)
  ret void
}
