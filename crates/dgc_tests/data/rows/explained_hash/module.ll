define i64 @f(i64 %n) {
entry:
  # a comment
  ret i64 %n
}
