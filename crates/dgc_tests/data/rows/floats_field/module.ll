%T = type { double, [2 x float], %T* }
define double @f(%T* %t) gc "shadow-stack" {
entry:
  %p = getelementptr %T, %T* %t, i32 0, i32 0
  %q = getelementptr %T, %T* %t, i32 0, i32 1, i64 1
  %v = load double, double* %p
  %w = fmul double %v, %v
  store double %w, double* %p
  store float 1.25e+00, float* %q
  ret double %w
}
