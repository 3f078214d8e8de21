define void @f() section "a+b" {
entry:
  ret void
}
