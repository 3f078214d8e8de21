%Node = type { i64, ptr }
define void @idle() {
entry:
  ret void
}
