define float @f(float %a) {
entry:
  %v = call float @llvm.copysign.f32(float %a, float 1.0)
  ret float %v
}
