declare void @llvm.sqrt.f64(double)
define void @f(double %a) {
entry:
  call void @llvm.sqrt.f64(double %a)
  ret void
}
