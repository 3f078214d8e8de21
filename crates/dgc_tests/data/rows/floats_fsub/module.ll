define double @f(double %a, double %b) {
entry:
  %v = fsub double %a, %b
  ret double %v
}
define float @g(float %a, float %b) {
entry:
  %v = fsub float %a, %b
  ret float %v
}
