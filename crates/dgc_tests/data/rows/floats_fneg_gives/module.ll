define double @f(double %a) {
entry:
  %v = fneg double %a
  ret double %v
}
define float @g(float %a) {
entry:
  %v = fneg float %a
  ret float %v
}
