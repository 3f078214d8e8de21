define void @f(ptr %p) {
entry:
  %v = getelementptr { i64 }, { i64 }* %p, i64 0
  ret void
}
