define void @f() {
entry:
  %v = fadd half 1.0, 2.0
  ret void
}
