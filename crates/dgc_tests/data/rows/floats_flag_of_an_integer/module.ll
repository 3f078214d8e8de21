define double @f(double %a) {
entry:
  %v = fadd nsw double %a, %a
  ret double %v
}
