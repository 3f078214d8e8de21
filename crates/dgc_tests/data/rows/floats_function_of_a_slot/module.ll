declare double @llvm.sqrt.f64(double)
define double @f() {
entry:
  %s = alloca double
  %v = call double @llvm.sqrt.f64(double %s)
  ret double %v
}
