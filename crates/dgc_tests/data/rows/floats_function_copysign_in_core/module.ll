declare i64 @llvm.copysign.f64(i64, i64)
define void @f() {
entry:
  ret void
}
