define void @f(i64 %n) {
entry:
  switch i64 %n, label %out [
    i64 3, label %out
    i64 3, label %out
  ]
out:
  ret void
}
