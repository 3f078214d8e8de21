%Node = type { i64, %Node* }
define void @f() {
entry:
  ret void
}
