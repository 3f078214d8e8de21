declare i8 @llvm.smax.i8(i8, i8)
declare i8 @llvm.smin.i8(i8, i8)
declare i8 @llvm.umax.i8(i8, i8)
declare i8 @llvm.umin.i8(i8, i8)
define i8 @smax8(i8 %a, i8 %b) {
entry:
  %v = call i8 @llvm.smax.i8(i8 %a, i8 %b)
  ret i8 %v
}
define i8 @smin8(i8 %a, i8 %b) {
entry:
  %v = call i8 @llvm.smin.i8(i8 %a, i8 %b)
  ret i8 %v
}
define i8 @umax8(i8 %a, i8 %b) {
entry:
  %v = call i8 @llvm.umax.i8(i8 %a, i8 %b)
  ret i8 %v
}
define i8 @umin8(i8 %a, i8 %b) {
entry:
  %v = call i8 @llvm.umin.i8(i8 %a, i8 %b)
  ret i8 %v
}
