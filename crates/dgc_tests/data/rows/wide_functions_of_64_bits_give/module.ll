declare i64 @llvm.smax.i64(i64, i64)
declare i64 @llvm.umax.i64(i64, i64)
declare i64 @llvm.abs.i64(i64, i1)
declare i64 @llvm.ctpop.i64(i64)
declare i64 @llvm.ctlz.i64(i64, i1)
declare i64 @llvm.cttz.i64(i64, i1)
declare i64 @llvm.fshl.i64(i64, i64, i64)
define i64 @smax64(i64 %a, i64 %b) {
entry:
  %v = call i64 @llvm.smax.i64(i64 %a, i64 %b)
  ret i64 %v
}
define i64 @umax64(i64 %a, i64 %b) {
entry:
  %v = call i64 @llvm.umax.i64(i64 %a, i64 %b)
  ret i64 %v
}
define i64 @abs64(i64 %a) {
entry:
  %v = call i64 @llvm.abs.i64(i64 %a, i1 false)
  ret i64 %v
}
define i64 @ctpop64(i64 %a) {
entry:
  %v = call i64 @llvm.ctpop.i64(i64 %a)
  ret i64 %v
}
define i64 @ctlz64(i64 %a) {
entry:
  %v = call i64 @llvm.ctlz.i64(i64 %a, i1 false)
  ret i64 %v
}
define i64 @cttz64(i64 %a) {
entry:
  %v = call i64 @llvm.cttz.i64(i64 %a, i1 false)
  ret i64 %v
}
define i64 @fshl64(i64 %a, i64 %b, i64 %c) {
entry:
  %v = call i64 @llvm.fshl.i64(i64 %a, i64 %b, i64 %c)
  ret i64 %v
}
