define double @f(double %a) {
entry:
  %v = call double @llvm.sqrt.f64(double %a)
  ret double %v
}
