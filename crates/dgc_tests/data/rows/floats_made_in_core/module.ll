define double @f(double %a, double %b) {
entry:
  %v = fadd double %a, %b
  ret double %v
}
