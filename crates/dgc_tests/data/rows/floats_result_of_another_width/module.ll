define float @f(double %a) {
entry:
  %v = fmul double %a, %a
  ret float %v
}
