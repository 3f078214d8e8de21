define double @f(double %a) {
entry:
  %s = alloca double
  %v = fadd double %a, %s
  ret double %v
}
