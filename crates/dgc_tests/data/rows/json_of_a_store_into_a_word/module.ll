%Node = type { i64, %Node* }
define void @link(%Node* %a, %Node* %b) gc "shadow-stack" {
entry:
  %f = getelementptr %Node, %Node* %a, i32 0, i32 1
  store %Node* %b, %Node** %f
  ret void
}
