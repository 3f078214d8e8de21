@d = constant <{ i8 }> <{ i8 1 }>
define void @f() {
entry:
  ret void
}
