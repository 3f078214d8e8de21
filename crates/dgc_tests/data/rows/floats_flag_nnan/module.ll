define double @f(double %a, float %b) {
entry:
  %v = fadd nnan double %a, 2.0
  %n = fneg nnan float %b
  %w = fpext nnan float %n to double
  %c = fcmp nnan olt double %v, %w
  %x = select i1 %c, double %v, double %w
  ret double %x
}
