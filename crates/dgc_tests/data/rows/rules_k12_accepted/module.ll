%Node = type { i64, %Node* }
define void @one(%Node* %n) gc "shadow-stack" {
entry:
  ret void
}
