define double @f(double %a, float %b) {
entry:
  %v = fmul nsz double %a, 2.0
  %n = fneg nsz float %b
  %w = fpext nsz float %n to double
  %c = fcmp nsz olt double %v, %w
  %x = select i1 %c, double %v, double %w
  ret double %x
}
