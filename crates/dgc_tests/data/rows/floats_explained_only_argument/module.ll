declare float @llvm.floor.f32(float)
define float @f(double %a) {
entry:
  %v = call float @llvm.floor.f32(float %a)
  ret float %v
}
