define i64 @f(i1 %c, i64 %n) {
entry:
  br i1 %c, label %n, label %out
out:
  ret i64 %n
}
