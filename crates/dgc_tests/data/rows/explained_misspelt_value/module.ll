define i64 @f(i64 %n) {
entry:
  %value = add i64 %n, 1
  ret i64 %valeu
}
