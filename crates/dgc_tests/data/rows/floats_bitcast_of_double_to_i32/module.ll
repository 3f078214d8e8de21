define void @f(double %a) {
entry:
  %v = bitcast double %a to i32
  ret void
}
