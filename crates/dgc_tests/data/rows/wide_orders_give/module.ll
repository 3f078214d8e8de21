declare i16 @llvm.bswap.i16(i16)
declare i48 @llvm.bswap.i48(i48)
declare i64 @llvm.bswap.i64(i64)
declare i8 @llvm.bitreverse.i8(i8)
declare i5 @llvm.bitreverse.i5(i5)
declare i64 @llvm.bitreverse.i64(i64)
define i16 @bswap16(i16 %a) {
entry:
  %v = call i16 @llvm.bswap.i16(i16 %a)
  ret i16 %v
}
define i48 @bswap48(i48 %a) {
entry:
  %v = call i48 @llvm.bswap.i48(i48 %a)
  ret i48 %v
}
define i64 @bswap64(i64 %a) {
entry:
  %v = call i64 @llvm.bswap.i64(i64 %a)
  ret i64 %v
}
define i8 @bitreverse8(i8 %a) {
entry:
  %v = call i8 @llvm.bitreverse.i8(i8 %a)
  ret i8 %v
}
define i5 @bitreverse5(i5 %a) {
entry:
  %v = call i5 @llvm.bitreverse.i5(i5 %a)
  ret i5 %v
}
define i64 @bitreverse64(i64 %a) {
entry:
  %v = call i64 @llvm.bitreverse.i64(i64 %a)
  ret i64 %v
}
