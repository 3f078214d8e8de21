define double @f(double %a) {
entry:
  ret double %a
}
