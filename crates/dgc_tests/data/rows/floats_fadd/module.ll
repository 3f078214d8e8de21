define double @f(double %a, double %b) {
entry:
  %v = fadd double %a, %b
  ret double %v
}
define float @g(float %a, float %b) {
entry:
  %v = fadd float %a, %b
  ret float %v
}
