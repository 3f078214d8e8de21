define i64 @f(double %a) {
entry:
  %v = bitcast double %a to i64
  %w = freeze i64 %v
  ret i64 %w
}
