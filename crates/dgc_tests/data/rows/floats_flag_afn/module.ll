define double @f(double %a, float %b) {
entry:
  %v = fadd afn double %a, 2.0
  %n = fneg afn float %b
  %w = fpext afn float %n to double
  %c = fcmp afn olt double %v, %w
  %x = select i1 %c, double %v, double %w
  ret double %x
}
