declare i16 @llvm.bswap.i16(i16)
define i16 @f(i16 %a) {
entry:
  %v = call i16 @llvm.bswap.i16(i16 %a)
  ret i16 %v
}
