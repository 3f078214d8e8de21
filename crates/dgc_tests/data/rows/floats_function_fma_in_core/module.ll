declare i64 @llvm.fma.f64(i64, i64, i64)
define void @f() {
entry:
  ret void
}
