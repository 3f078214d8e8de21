define i8 @f(i8 %a) {
entry:
  %v = call i8 @llvm.cttz.i8(i8 %a, i1 false)
  ret i8 %v
}
declare i8 @llvm.cttz.i8(i8, i1)
