define i64 @f(i64 %n) {
entry:
  %v = add i64 %n 2
  ret i64 %v
}
