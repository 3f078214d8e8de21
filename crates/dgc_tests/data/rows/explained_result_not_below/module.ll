define i64 @same(i64 %n) {
entry:
  ret i64 %n
}
