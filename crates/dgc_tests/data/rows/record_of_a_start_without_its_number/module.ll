%Node = type { i64, %Node* }
@top = global %Node* null
define void @idle(i64 %n) {
entry:
  ret void
}
