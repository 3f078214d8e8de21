define double @f(double %a) {
entry:
  %v = add double %a, %a
  ret double %v
}
