define i1 @f(float %a, double %b) {
entry:
  %c = fcmp oeq double %b, %a
  ret i1 %c
}
