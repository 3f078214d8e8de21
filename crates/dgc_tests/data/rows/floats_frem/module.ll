define double @f(double %a, double %b) {
entry:
  %v = frem double %a, %b
  ret double %v
}
define float @g(float %a, float %b) {
entry:
  %v = frem float %a, %b
  ret float %v
}
