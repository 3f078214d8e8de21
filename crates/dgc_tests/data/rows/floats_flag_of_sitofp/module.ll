define double @f(i64 %a) {
entry:
  %v = sitofp nnan i64 %a to double
  ret double %v
}
