%T = type { float, double, %T* }
@g = global double 1.25e+00
@h = global float -5.0e-01
define float @f(%T* %t) gc "shadow-stack" {
entry:
  %s = alloca double
  %r = alloca float
  %p = getelementptr %T, %T* %t, i32 0, i32 0
  %q = getelementptr %T, %T* %t, i32 0, i32 1
  %a = load float, float* %p
  %b = load double, double* %q
  store float %a, float* @h
  store float 1.5, float* %p
  store double %b, double* @g
  store double 2.0, double* %s
  ret float %a
}
