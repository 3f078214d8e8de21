declare float @llvm.sqrt.f64(double)
define float @f(double %a, float %b) {
entry:
  %v = call float @llvm.sqrt.f64(double %a)
  ret float %v
}
