define double @f(i64 %a) {
entry:
  %v = fmul double %a, 2.0
  ret double %v
}
