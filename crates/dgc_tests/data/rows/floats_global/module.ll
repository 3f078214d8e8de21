@g = global double 1.25e+00
@h = constant float -5.0e-01, align 4
@z = global double zeroinitializer
define double @f() {
entry:
  %v = load double, double* @g
  %w = load float, float* @h
  %x = fpext float %w to double
  %y = fadd double %v, %x
  store double %y, double* @z
  ret double %y
}
