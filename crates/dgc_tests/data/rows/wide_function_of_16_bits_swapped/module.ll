declare i16 @llvm.bswap.i16(i16)
