declare double @sin(double)
declare double @llvm.sqrt.f64(double)
define double @f(double %a) {
entry:
  %v = call double @sin(double %a)
  %w = call double @llvm.sqrt.f64(double %v)
  ret double %w
}
