declare i64 @llvm.ctpop.i100(i64)
define void @f() {
entry:
  %v = call i64 @llvm.ctpop.i100(i64 1)
  ret void
}
