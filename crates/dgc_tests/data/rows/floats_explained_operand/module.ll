define double @f(i64 %n) {
entry:
  %v = fadd double %n, 1.0
  ret double %v
}
