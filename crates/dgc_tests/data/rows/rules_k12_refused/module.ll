%Node = type { i64, %Node* }
define void @one(%Node* %n) {
entry:
  ret void
}
