declare i64 @next()
declare double @llvm.sqrt.f64(double)
define i64 @f(i64 %a) {
entry:
  %b = call i64 @next()
  %d = sitofp i64 %a to double
  %s = call double @llvm.sqrt.f64(double %d)
  %c = fcmp oeq double %s, %d
  %m = add i64 %a, 1000
  %x = bitcast double %d to i64
  %y = bitcast double %s to i64
  %z = zext i1 %c to i64
  %p = add i64 %b, %x
  %q = mul i64 %p, 10
  %r = add i64 %q, %y
  %t = mul i64 %r, 10
  %u = add i64 %t, %z
  ret i64 %u
}
