declare i64 @llvm.bswap.i48(i48)
define i64 @f(i48 %a) {
entry:
  %v = call i64 @llvm.bswap.i48(i48 %a)
  ret i64 %v
}
