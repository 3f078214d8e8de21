define void @f(ptr %p) {
entry:
  %s = alloca ptr*
  ret void
}
