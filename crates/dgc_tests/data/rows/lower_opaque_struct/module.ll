%File = type opaque
define void @f() {
entry:
  ret void
}
