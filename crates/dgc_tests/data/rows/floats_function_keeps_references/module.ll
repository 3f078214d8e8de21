%T = type { double, %T* }
declare double @llvm.fabs.f64(double)
define double @f(%T* %t) gc "shadow-stack" {
entry:
  %p = getelementptr %T, %T* %t, i32 0, i32 0
  %v = load double, double* %p
  %w = call double @llvm.fabs.f64(double %v)
  store double %w, double* %p
  ret double %w
}
