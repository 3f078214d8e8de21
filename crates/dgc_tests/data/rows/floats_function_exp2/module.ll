declare double @llvm.exp2.f64(double)
define void @f() {
entry:
  %v = call double @llvm.exp2.f64(double 1.0)
  ret void
}
