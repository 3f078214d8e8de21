%T = type { i64, %T* }
declare double @llvm.sqrt.f64(double)
define double @f(%T* %t) gc "shadow-stack" {
entry:
  %v = call double @llvm.sqrt.f64(%T* %t)
  ret double %v
}
