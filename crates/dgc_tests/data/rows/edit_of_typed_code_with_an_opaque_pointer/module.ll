%Node = type { i64, %Node* }
define void @leaf() gc "shadow-stack" {
entry:
  ret void
}
