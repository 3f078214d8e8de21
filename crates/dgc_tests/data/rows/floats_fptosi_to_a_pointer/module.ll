define i64 @f(double %a) {
entry:
  %v = fptosi double %a to ptr
  ret i64 0
}
