declare i8 @llvm.bswap.i8(i8)
define void @f() {
entry:
  %v = call i8 @llvm.bswap.i8(i8 1)
  ret void
}
