define double @f(double %a) {
entry:
  %v = freeze double %a
  %w = freeze float 1.0
  ret double %v
}
