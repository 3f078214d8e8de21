%Node = type { i64, %Node* }
declare void @keep(%Node*)
define void @f(%Node* %n) gc "shadow-stack" {
entry:
  call void @keep(%Node* %n)
  ret void
}
