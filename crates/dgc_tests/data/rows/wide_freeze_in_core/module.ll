define i64 @f(i64 %n) {
entry:
  %v = freeze i64 %n
  ret i64 %v
}
