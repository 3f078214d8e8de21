define double @f(double %a, float %b) {
entry:
  %s = alloca double, align 8
  %t = alloca float
  store double %a, double* %s, align 8
  store float 5.0e-01, float* %t
  %v = load double, double* %s, align 8
  %w = load float, float* %t
  ret double %v
}
