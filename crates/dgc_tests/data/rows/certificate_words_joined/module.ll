define i64 @f(i64 %k) {
entry:
  br label %out
out:
  ret i64 %k
}
