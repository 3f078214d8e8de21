define void @f(double %a) {
entry:
  call void @f(double 1)
  ret void
}
