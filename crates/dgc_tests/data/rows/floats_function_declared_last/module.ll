define double @f(double %a) {
entry:
  %v = call double @llvm.exp.f64(double %a)
  ret double %v
}
declare double @llvm.exp.f64(double)
