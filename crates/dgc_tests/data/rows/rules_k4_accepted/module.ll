%Node = type { i64, %Node* }
define %Node* @second(%Node* %n) gc "shadow-stack" {
entry:
  %c = icmp eq %Node* %n, null
  br i1 %c, label %none, label %some
none:
  ret %Node* null
some:
  %f = getelementptr %Node, %Node* %n, i32 0, i32 1
  %x = load %Node*, %Node** %f
  ret %Node* %x
}
