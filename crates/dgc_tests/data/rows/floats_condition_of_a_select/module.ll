define i64 @f(float %a) {
entry:
  %v = select float %a, i64 1, i64 2
  ret i64 %v
}
