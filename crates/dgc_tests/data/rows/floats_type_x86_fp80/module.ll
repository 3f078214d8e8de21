define void @f() {
entry:
  %v = fadd x86_fp80 1.0, 2.0
  ret void
}
