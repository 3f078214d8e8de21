%Row = type { i64, [64 x i64] }
define void @idle() {
entry:
  ret void
}
