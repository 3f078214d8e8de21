declare double @llvm.exp.f64(double)
declare float @llvm.exp.f32(float)
define double @f(double %a, float %b) {
entry:
  %v = call double @llvm.exp.f64(double %a)
  %w = call float @llvm.exp.f32(float %b)
  %x = fpext float %w to double
  %y = fadd double %v, %x
  ret double %y
}
