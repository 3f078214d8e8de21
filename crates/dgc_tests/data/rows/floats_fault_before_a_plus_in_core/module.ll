define double @f(double %a) {
entry:
  ret double 1.0e+00
}
