define float @f(double %a) {
entry:
  %v = fptrunc double %a to float
  ret float %v
}
