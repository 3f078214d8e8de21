define double @f(double %a, double %b) {
entry:
  %v = fdiv double %a, %b
  ret double %v
}
define float @g(float %a, float %b) {
entry:
  %v = fdiv float %a, %b
  ret float %v
}
