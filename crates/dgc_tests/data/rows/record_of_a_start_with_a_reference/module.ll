%Node = type { i64, %Node* }
@top = global %Node* null
define void @list(%Node* %n) {
entry:
  ret void
}
