define i1 @f(double %a) {
entry:
  %c = fcmp nnan eq double %a, %a
  ret i1 %c
}
