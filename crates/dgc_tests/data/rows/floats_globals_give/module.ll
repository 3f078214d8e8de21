@g = global double 1.25e+00
@h = global float -5.0e-01
@z = global float zeroinitializer
define double @f() {
entry:
  %v = load double, double* @g
  ret double %v
}
define float @k() {
entry:
  %v = load float, float* @h
  ret float %v
}
define float @l() {
entry:
  %v = load float, float* @z
  ret float %v
}
