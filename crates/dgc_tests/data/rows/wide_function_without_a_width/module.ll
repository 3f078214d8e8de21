declare i64 @llvm.smax(i64, i64)
define void @f() {
entry:
  %v = call i64 @llvm.smax(i64 1, i64 1)
  ret void
}
