define float @half(float noundef %x) {
entry:
  %v = fmul float %x, 5.0e-01
  ret float %v
}
define float @f(double %a) {
entry:
  %x = fptrunc double %a to float
  %v = call float @half(float noundef %x)
  %w = call float @half(float noundef 0x3FF8000000000000)
  %y = call float @half(float 1.5)
  %z = call float @half(float noundef -2.5e+00)
  ret float %v
}
