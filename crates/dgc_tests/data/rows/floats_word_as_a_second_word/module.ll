define double @f(double %a) {
entry:
  %v = fmul fadd double %a, %a
  ret double %v
}
