define double @f(double %a) {
entry:
  %v = fmul double %a %a
  ret double %v
}
