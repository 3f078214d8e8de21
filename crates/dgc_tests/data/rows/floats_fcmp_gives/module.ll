define i1 @f(double %a, double %b) {
entry:
  %c = fcmp olt double %a, %b
  ret i1 %c
}
define i1 @g(double %a) {
entry:
  %c = fcmp false double %a, %a
  ret i1 %c
}
