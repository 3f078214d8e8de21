%File = type opaque
%File = type { i64 }
define void @f() {
entry:
  ret void
}
