declare i64 @llvm.fabs.f64(i64)
define void @f() {
entry:
  ret void
}
