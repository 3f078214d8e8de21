declare double @llvm.sqrt.f64(double)
define double @f(i64 %a) {
entry:
  %v = call double @llvm.sqrt.f64(double %a)
  ret double %v
}
