define double @f(double %a, float %b) {
entry:
  %v = fsub ninf double %a, 2.0
  %n = fneg ninf float %b
  %w = fpext ninf float %n to double
  %c = fcmp ninf olt double %v, %w
  %x = select i1 %c, double %v, double %w
  ret double %x
}
