define i64 @f(float %a) {
entry:
  %v = zext float %a to i64
  ret i64 %v
}
