declare double @sin(double)
define double @f(double %a) {
entry:
  %v = call double @sin(double %a)
  ret double %v
}
