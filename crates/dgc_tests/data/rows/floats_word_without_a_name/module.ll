define void @f(double %a) {
entry:
  fadd double %a, %a
  ret void
}
