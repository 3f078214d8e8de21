define double @f(float %a) {
entry:
  %v = fadd double 1.0, %a
  ret double %v
}
