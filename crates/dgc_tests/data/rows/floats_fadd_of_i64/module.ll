define i64 @f(i64 %a) {
entry:
  %v = fadd i64 %a, %a
  ret i64 %v
}
