define double @f(double %a) {
entry:
  %v = fadd double %a, %a
  %w = fadd double %v, %v
  ret double %w
}
