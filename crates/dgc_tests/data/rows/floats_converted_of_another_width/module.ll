define i64 @f(float %a) {
entry:
  %v = fptosi double %a to i64
  ret i64 %v
}
