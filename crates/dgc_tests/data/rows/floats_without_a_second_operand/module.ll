define double @f(double %a) {
entry:
  %v = fadd double %a
  ret double %v
}
