define void @f(ptr %p) {
entry:
  %v = load i64, ptr addrspace(1) %p
  ret void
}
