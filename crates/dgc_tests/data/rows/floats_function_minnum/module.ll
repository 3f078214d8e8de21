declare double @llvm.minnum.f64(double, double)
declare float @llvm.minnum.f32(float, float)
define double @f(double %a, float %b) {
entry:
  %v = call double @llvm.minnum.f64(double %a, double 1.25e+00)
  %w = call float @llvm.minnum.f32(float %b, float 0x3FF8000000000000)
  %x = fpext float %w to double
  %y = fadd double %v, %x
  ret double %y
}
