define double @f(i64 %a, i32 %b) {
entry:
  %v = bitcast i64 %a to double
  %w = bitcast i32 %b to float
  %x = fpext float %w to double
  %y = fadd double %v, %x
  ret double %y
}
