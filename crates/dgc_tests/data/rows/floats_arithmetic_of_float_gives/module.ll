define float @f(float %a) {
entry:
  %v = fadd fast float %a, 1.0
  ret float %v
}
