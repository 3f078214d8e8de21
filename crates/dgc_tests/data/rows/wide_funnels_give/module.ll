declare i8 @llvm.fshl.i8(i8, i8, i8)
declare i8 @llvm.fshr.i8(i8, i8, i8)
declare i33 @llvm.fshl.i33(i33, i33, i33)
declare i33 @llvm.fshr.i33(i33, i33, i33)
declare i1 @llvm.fshl.i1(i1, i1, i1)
declare i1 @llvm.fshr.i1(i1, i1, i1)
define i8 @fshl8(i8 %a, i8 %b, i8 %c) {
entry:
  %v = call i8 @llvm.fshl.i8(i8 %a, i8 %b, i8 %c)
  ret i8 %v
}
define i8 @fshr8(i8 %a, i8 %b, i8 %c) {
entry:
  %v = call i8 @llvm.fshr.i8(i8 %a, i8 %b, i8 %c)
  ret i8 %v
}
define i33 @fshl33(i33 %a, i33 %b, i33 %c) {
entry:
  %v = call i33 @llvm.fshl.i33(i33 %a, i33 %b, i33 %c)
  ret i33 %v
}
define i33 @fshr33(i33 %a, i33 %b, i33 %c) {
entry:
  %v = call i33 @llvm.fshr.i33(i33 %a, i33 %b, i33 %c)
  ret i33 %v
}
define i1 @fshl1(i1 %a, i1 %b, i1 %c) {
entry:
  %v = call i1 @llvm.fshl.i1(i1 %a, i1 %b, i1 %c)
  ret i1 %v
}
define i1 @fshr1(i1 %a, i1 %b, i1 %c) {
entry:
  %v = call i1 @llvm.fshr.i1(i1 %a, i1 %b, i1 %c)
  ret i1 %v
}
