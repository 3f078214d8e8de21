define i64 @f(i64 %n) {
entry:
  %v = add i64 %n, poison
  ret i64 %v
}
