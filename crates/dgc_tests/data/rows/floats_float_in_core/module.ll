define void @f() {
entry:
  %s = alloca float
  ret void
}
