%File = type opaque %Node = type { i64 }
define void @f() {
entry:
  ret void
}
