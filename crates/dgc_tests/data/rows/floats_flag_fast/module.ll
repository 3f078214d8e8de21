define double @f(double %a, float %b) {
entry:
  %v = fmul fast double %a, 2.0
  %n = fneg fast float %b
  %w = fpext fast float %n to double
  %c = fcmp fast olt double %v, %w
  %x = select i1 %c, double %v, double %w
  ret double %x
}
