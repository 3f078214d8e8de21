declare double @llvm.sqrt.f64(double)
declare float @sinf(float)
define float @f(float %a, double %b) {
entry:
  %v = fadd fast double %b, 1.25e+00
  %w = call fast double @llvm.sqrt.f64(double %v)
  %x = fptrunc double %w to float
  %y = call float @sinf(float %x)
  %z = frem float %y, %a
  ret float %z
}
