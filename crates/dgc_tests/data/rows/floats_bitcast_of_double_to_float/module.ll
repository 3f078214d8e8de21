define void @f(double %a) {
entry:
  %v = bitcast double %a to float
  ret void
}
