define double @f(double %a, float %b) {
entry:
  %v = fdiv arcp double %a, 2.0
  %n = fneg arcp float %b
  %w = fpext arcp float %n to double
  %c = fcmp arcp olt double %v, %w
  %x = select i1 %c, double %v, double %w
  ret double %x
}
