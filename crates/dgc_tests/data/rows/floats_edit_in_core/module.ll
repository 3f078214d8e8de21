define i64 @f(i64 %n) {
entry:
  %v = add i64 %n, 3
  ret i64 %v
}
