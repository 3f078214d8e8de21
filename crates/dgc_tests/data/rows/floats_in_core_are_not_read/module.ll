define void @f() {
entry:
  %v = fadd double 1.0, 2.0
  ret void
}
