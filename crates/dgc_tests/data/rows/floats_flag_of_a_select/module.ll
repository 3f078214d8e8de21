define double @f(i1 %c, double %a) {
entry:
  %v = select fast i1 %c, double %a, double 1.0
  ret double %v
}
