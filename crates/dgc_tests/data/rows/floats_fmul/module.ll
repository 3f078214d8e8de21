define double @f(double %a, double %b) {
entry:
  %v = fmul double %a, %b
  ret double %v
}
define float @g(float %a, float %b) {
entry:
  %v = fmul float %a, %b
  ret float %v
}
