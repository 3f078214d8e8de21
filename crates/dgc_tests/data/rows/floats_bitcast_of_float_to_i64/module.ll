define void @f(float %a) {
entry:
  %v = bitcast float %a to i64
  ret void
}
