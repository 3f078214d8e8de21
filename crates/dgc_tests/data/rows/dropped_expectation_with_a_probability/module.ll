declare i1 @llvm.expect.with.probability.i1(i1, i1, double immarg)
define i1 @f(i1 %n) {
entry:
  %v = call i1 @llvm.expect.with.probability.i1(i1 %n, i1 true, double 9.0e-01)
  ret i1 %v
}
