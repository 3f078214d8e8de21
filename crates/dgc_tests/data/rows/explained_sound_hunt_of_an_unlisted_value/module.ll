define i64 @f(i64 %n) {
entry:
  br label %out
out:
  ret i64 %n
}
