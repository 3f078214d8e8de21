define i64 @f(i64 %n) {
entry:
  %v = fadd double 1.0, 2.0
  ret i64 %v
}
