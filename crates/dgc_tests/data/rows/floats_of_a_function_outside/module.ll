declare double @hypot(double, double)
declare float @sinf(float)
define double @f(double %a) {
entry:
  %v = call double @hypot(double %a, double 1.25e+00)
  %w = call float @sinf(float -5.0e-01)
  ret double %v
}
