define i64 @f(i64 %a) {
entry:
  %v = call i64 @llvm.ctlz.i64(i64 %a, i1 true)
  ret i64 %v
}
declare i64 @llvm.ctlz.i64(i64, i1)
