define i64 @f(i64 %n) {
entry:
  %v = add i64 %n, 1
next:
  ret i64 %v
}
