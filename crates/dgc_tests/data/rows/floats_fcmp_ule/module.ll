define i1 @f(double %a, double %b, float %x) {
entry:
  %c = fcmp ule double %a, %b
  %d = fcmp ule float %x, 5.0e-01
  %e = and i1 %c, %d
  ret i1 %e
}
