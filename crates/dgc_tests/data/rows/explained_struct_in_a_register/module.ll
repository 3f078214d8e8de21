define i64 @f(i64 %n) {
entry:
  %v = extractvalue { i64, i64 } undef, 0
  ret i64 %v
}
