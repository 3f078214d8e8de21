declare double @llvm.sqrt.f64(double)
define double @f(double %a) {
entry:
  %v = call fast double @llvm.sqrt.f64(double %a)
  %w = tail call nnan nsz double @llvm.sqrt.f64(double %v)
  ret double %w
}
