define void @f() {
entry:
  %v = fadd fp128 1.0, 2.0
  ret void
}
