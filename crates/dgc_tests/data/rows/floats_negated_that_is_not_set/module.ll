define double @f(double %a) {
entry:
  %v = fneg double %w
  %w = fneg double %a
  ret double %v
}
