%Node = type { i64, %Node* }
define void @idle() {
entry:
  ret void
}
