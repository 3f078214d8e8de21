declare i16 @llvm.fshr.i7(i7, i7)
define i16 @f(i7 %a, i7 %b) {
entry:
  %v = call i16 @llvm.fshr.i7(i7 %a, i7 %b)
  ret i16 %v
}
