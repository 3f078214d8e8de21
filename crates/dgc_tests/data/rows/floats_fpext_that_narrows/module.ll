define i64 @f(double %a) {
entry:
  %v = fpext double %a to float
  ret i64 0
}
