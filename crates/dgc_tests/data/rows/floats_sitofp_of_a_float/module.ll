define i64 @f(float %a) {
entry:
  %v = sitofp float %a to double
  ret i64 0
}
