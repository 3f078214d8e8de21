declare i64 @llvm.log.f64(i64)
define void @f() {
entry:
  ret void
}
