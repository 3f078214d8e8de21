define i64 @same(i64 %n) {
entry:
  # the same number
  ret i64 %n
}
