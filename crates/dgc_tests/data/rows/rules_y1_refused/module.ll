%List = type { i64, %List }
define void @idle() {
entry:
  ret void
}
