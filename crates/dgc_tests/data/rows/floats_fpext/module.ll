define double @f(float %a) {
entry:
  %v = fpext float %a to double
  ret double %v
}
