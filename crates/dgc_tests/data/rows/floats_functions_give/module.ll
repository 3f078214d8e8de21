declare double @llvm.fabs.f64(double)
declare float @llvm.minnum.f32(float, float)
declare double @llvm.fmuladd.f64(double, double, double)
define double @f(double %a) {
entry:
  %v = call double @llvm.fabs.f64(double %a)
  %w = call double @llvm.fmuladd.f64(double %v, double %v, double -1.0)
  ret double %w
}
define float @g(float %a) {
entry:
  %v = call float @llvm.minnum.f32(float %a, float %a)
  ret float %v
}
