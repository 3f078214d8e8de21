define float @f(float %a) {
entry:
  ret float %a
}
