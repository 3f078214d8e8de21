%Node = type { i64, %Node* }
define void @cut(%Node* %n) gc "shadow-stack" {
entry:
  %f = getelementptr %Node, %Node* %n, i32 0, i32 1
  store %Node* null, %Node** %f
  ret void
}
