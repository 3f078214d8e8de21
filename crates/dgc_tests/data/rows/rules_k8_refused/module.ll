%Node = type { i64, %Node* }
define void @keep(%Node* %n) gc "shadow-stack" {
entry:
  %s = alloca %Node*
  store %Node* %n, %Node** %s
  ret void
}
