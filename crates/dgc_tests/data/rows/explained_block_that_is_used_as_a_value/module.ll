define i64 @f() {
entry:
  br label %out
out:
  ret i64 %out
}
