define i64 @f(double %a) {
entry:
  %v = fptosi double %a to float
  ret i64 0
}
