declare double @llvm.fmuladd.f64(double, double, double)
declare float @llvm.fmuladd.f32(float, float, float)
define double @f(double %a, float %b) {
entry:
  %v = call double @llvm.fmuladd.f64(double %a, double 1.25e+00, double -2.0)
  %w = call float @llvm.fmuladd.f32(float %b, float 0x3FF8000000000000, float %b)
  %x = fpext float %w to double
  %y = fadd double %v, %x
  ret double %y
}
