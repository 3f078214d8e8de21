declare float @llvm.sqrt.f32(float)
define double @f(double %a, float %b) {
entry:
  %v = call double @llvm.sqrt.f32(double %a)
  ret double %v
}
