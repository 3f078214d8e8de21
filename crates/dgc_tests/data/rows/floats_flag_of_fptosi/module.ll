define i64 @f(double %a) {
entry:
  %v = fptosi fast double %a to i64
  ret i64 %v
}
