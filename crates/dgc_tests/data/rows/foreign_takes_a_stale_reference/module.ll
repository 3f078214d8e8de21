%Node = type { i64, %Node* }
declare void @dg_safepoint()
declare void @keep(%Node*)
define void @f(%Node* %n) gc "shadow-stack" {
entry:
  call void @dg_safepoint()
  call void @keep(%Node* %n)
  ret void
}
