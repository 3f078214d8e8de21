%Node = type { i64, %Node* }
define void @begin(%Node* %n) gc "shadow-stack" {
entry:
  ret void
}
