define void @f(ptr %a) gc "shadow-stack" {
entry:
  %v = fadd ptr %a, %a
  ret void
}
