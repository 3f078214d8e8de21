%Node = type { i64, %Node* }
@x = external global %Node*, align 8
declare void @take(%Node**)
define void @f() gc "shadow-stack" {
entry:
  call void @take(%Node** @x)
  ret void
}
