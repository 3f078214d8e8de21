define i8 @f(float %a) {
entry:
  %v = fptosi float %a to i8
  ret i8 %v
}
define i64 @g(double %a) {
entry:
  %v = fptosi double %a to i64
  ret i64 %v
}
