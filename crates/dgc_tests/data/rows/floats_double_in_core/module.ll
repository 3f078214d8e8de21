define void @f() {
entry:
  %s = alloca double
  ret void
}
