%File = type opaque
%File = type opaque
define void @f() {
entry:
  ret void
}
