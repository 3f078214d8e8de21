%"a b" = type opaque
define void @f() {
entry:
  ret void
}
