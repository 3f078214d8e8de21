define i64 @f(i64 %n) {
entry:
  %v = add i64 %n,
next:
  ret i64 %v
}
