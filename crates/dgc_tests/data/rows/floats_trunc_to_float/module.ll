define i64 @f(i64 %a) {
entry:
  %v = trunc i64 %a to float
  ret i64 0
}
