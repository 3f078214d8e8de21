define i64 @f(double %a, float %b) {
entry:
  %v = bitcast double %a to i64
  %w = bitcast float %b to i32
  %x = zext i32 %w to i64
  %y = add i64 %v, %x
  ret i64 %y
}
