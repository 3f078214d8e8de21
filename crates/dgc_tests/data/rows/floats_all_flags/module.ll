define float @f(double %a) {
entry:
  %v = fmul nnan ninf nsz arcp contract afn reassoc double %a, %a
  %w = fptrunc fast nnan double %v to float
  ret float %w
}
