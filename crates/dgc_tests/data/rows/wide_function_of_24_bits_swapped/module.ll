declare i24 @llvm.bswap.i24(i24)
define void @f() {
entry:
  %v = call i24 @llvm.bswap.i24(i24 1)
  ret void
}
