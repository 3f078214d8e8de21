%Node = type { i64, %Node* }
@top = global %Node* null
define void @idle() {
entry:
  ret void
}
