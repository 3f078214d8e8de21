define double @f(double %a, float %b) {
entry:
  %v = frem contract double %a, 2.0
  %n = fneg contract float %b
  %w = fpext contract float %n to double
  %c = fcmp contract olt double %v, %w
  %x = select i1 %c, double %v, double %w
  ret double %x
}
