define i64 @f(float %a) {
entry:
  %v = fptrunc float %a to double
  ret i64 0
}
