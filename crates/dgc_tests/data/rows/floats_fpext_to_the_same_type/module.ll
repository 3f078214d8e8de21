define i64 @f(double %a) {
entry:
  %v = fpext double %a to double
  ret i64 0
}
