define i8 @f(i8 %a) {
entry:
  %v = call i8 @llvm.abs.i8(i8 %a, i1 true)
  ret i8 %v
}
