define void @f(double* %a) {
entry:
  ret void
}
