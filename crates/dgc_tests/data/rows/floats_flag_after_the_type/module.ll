define double @f(double %a) {
entry:
  %v = fadd double fast %a, %a
  ret double %v
}
