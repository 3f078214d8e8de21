declare double @llvm.log10.f64(double)
define void @f() {
entry:
  %v = call double @llvm.log10.f64(double 1.0)
  ret void
}
