%Row = type { i64, [63 x i64] }
define void @idle() {
entry:
  ret void
}
