@g = global double 1.0
define void @f(double %a, float %b) {
entry:
  %v = fadd fast double %a, -5.0e-01
  store double %v, double* @g
  %c = fcmp ninf olt float %b, 1.25e+00
  %w = fptrunc double %v to float
  %n = fneg float %w
  ret void
}
