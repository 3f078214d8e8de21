declare i8 @llvm.bitreverse.i8(i8)
define i8 @f(i8 %a) {
entry:
  %v = call i8 @llvm.bitreverse.i8(i8 %a)
  ret i8 %v
}
