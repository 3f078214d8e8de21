declare double @llvm.powi.f64.i32(double)
define void @f() {
entry:
  %v = call double @llvm.powi.f64.i32(double 1.0)
  ret void
}
