define i64 @f(i64 %n) {
entry:
  %v = fpext i64 %n, 1
  ret i64 %n
}
