declare i8 @llvm.smin.i8(i8, i8)
define i8 @f(i8 %a, i8 %b) {
entry:
  %v = call i8 @llvm.smin.i8(i8 %a, i8 -3)
  ret i8 %v
}
