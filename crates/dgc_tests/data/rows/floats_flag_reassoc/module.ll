define double @f(double %a, float %b) {
entry:
  %v = fsub reassoc double %a, 2.0
  %n = fneg reassoc float %b
  %w = fpext reassoc float %n to double
  %c = fcmp reassoc olt double %v, %w
  %x = select i1 %c, double %v, double %w
  ret double %x
}
