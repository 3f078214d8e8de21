define void @f(ptr addrspace(1) %p) {
entry:
  ret void
}
