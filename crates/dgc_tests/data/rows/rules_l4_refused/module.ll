define i64 @twice(i64 %n) {
entry:
  %v = add i64 %n, %n
  %v = add i64 %v, 1
  ret i64 %v
}
