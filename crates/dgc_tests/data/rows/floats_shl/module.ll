define double @f(double %a) {
entry:
  %v = shl double %a, 3
  ret double %v
}
