define void @f(i64 %a) {
entry:
  switch i64 %a, label %out [ i64 1.0, label %out ]
out:
  ret void
}
