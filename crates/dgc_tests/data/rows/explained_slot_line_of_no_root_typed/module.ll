%Node = type { i64, %Node* }
declare void @dg_safepoint()
define i64 @idle() {
entry:
  ret i64 0
}
define void @keep(%Node* %n) gc "shadow-stack" {
entry:
  %s = alloca %Node*
  store %Node* %n, %Node** %s
  br label %next
next:
  ret void
}
