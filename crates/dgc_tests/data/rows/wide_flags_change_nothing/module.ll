declare i8 @llvm.abs.i8(i8, i1)
declare i8 @llvm.ctlz.i8(i8, i1)
declare i8 @llvm.cttz.i8(i8, i1)
define i8 @abs8(i8 %a) {
entry:
  %v = call i8 @llvm.abs.i8(i8 %a, i1 true)
  ret i8 %v
}
define i8 @ctlz8(i8 %a) {
entry:
  %v = call i8 @llvm.ctlz.i8(i8 %a, i1 true)
  ret i8 %v
}
define i8 @cttz8(i8 %a) {
entry:
  %v = call i8 @llvm.cttz.i8(i8 %a, i1 true)
  ret i8 %v
}
