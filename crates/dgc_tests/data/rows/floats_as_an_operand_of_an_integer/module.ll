define i64 @f(double %a) {
entry:
  %v = add i64 %a, 2
  ret i64 %v
}
