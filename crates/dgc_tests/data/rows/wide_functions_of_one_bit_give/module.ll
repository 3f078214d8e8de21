declare i1 @llvm.smax.i1(i1, i1)
declare i1 @llvm.smin.i1(i1, i1)
declare i1 @llvm.umax.i1(i1, i1)
declare i1 @llvm.umin.i1(i1, i1)
declare i1 @llvm.abs.i1(i1, i1)
declare i1 @llvm.ctpop.i1(i1)
declare i1 @llvm.ctlz.i1(i1, i1)
declare i1 @llvm.cttz.i1(i1, i1)
declare i1 @llvm.bitreverse.i1(i1)
define i1 @smax1(i1 %a, i1 %b) {
entry:
  %v = call i1 @llvm.smax.i1(i1 %a, i1 %b)
  ret i1 %v
}
define i1 @smin1(i1 %a, i1 %b) {
entry:
  %v = call i1 @llvm.smin.i1(i1 %a, i1 %b)
  ret i1 %v
}
define i1 @umax1(i1 %a, i1 %b) {
entry:
  %v = call i1 @llvm.umax.i1(i1 %a, i1 %b)
  ret i1 %v
}
define i1 @umin1(i1 %a, i1 %b) {
entry:
  %v = call i1 @llvm.umin.i1(i1 %a, i1 %b)
  ret i1 %v
}
define i1 @abs1(i1 %a) {
entry:
  %v = call i1 @llvm.abs.i1(i1 %a, i1 false)
  ret i1 %v
}
define i1 @ctpop1(i1 %a) {
entry:
  %v = call i1 @llvm.ctpop.i1(i1 %a)
  ret i1 %v
}
define i1 @ctlz1(i1 %a) {
entry:
  %v = call i1 @llvm.ctlz.i1(i1 %a, i1 false)
  ret i1 %v
}
define i1 @cttz1(i1 %a) {
entry:
  %v = call i1 @llvm.cttz.i1(i1 %a, i1 false)
  ret i1 %v
}
define i1 @bitreverse1(i1 %a) {
entry:
  %v = call i1 @llvm.bitreverse.i1(i1 %a)
  ret i1 %v
}
