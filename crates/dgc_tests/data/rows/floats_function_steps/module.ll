declare float @llvm.copysign.f32(float, float)
define void @f(float %a) {
entry:
  %v = tail call float @llvm.copysign.f32(float %a, float -1.0)
  ret void
}
