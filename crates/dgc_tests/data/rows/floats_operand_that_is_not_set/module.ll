define double @f(double %a) {
entry:
  %v = fsub double %a, %w
  %w = fneg double %a
  ret double %v
}
