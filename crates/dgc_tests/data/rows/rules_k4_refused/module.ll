%Node = type { i64, %Node* }
define %Node* @second(%Node* %n) gc "shadow-stack" {
entry:
  %f = getelementptr %Node, %Node* %n, i32 0, i32 1
  %x = load %Node*, %Node** %f
  ret %Node* %x
}
