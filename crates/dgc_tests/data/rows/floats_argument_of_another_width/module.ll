define float @half(float %x) {
entry:
  ret float %x
}
define float @f(double %a) {
entry:
  %v = call float @half(double %a)
  ret float %v
}
