define i1 @f(double %a) {
entry:
  %c = fcmp double %a, %a
  ret i1 %c
}
