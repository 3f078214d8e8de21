declare i16 @llvm.umax.i16(i16, i16)
define i16 @f(i16 %a, i16 %b) {
entry:
  %v = call i16 @llvm.umax.i16(i16 %a, i16 %b)
  ret i16 %v
}
