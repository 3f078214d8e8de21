%Node = type { i64, %Node* }
declare void @dg_safepoint()
define i64 @keep(%Node* %n) gc "shadow-stack" {
entry:
  %s = alloca %Node*
  store %Node* %n, %Node** %s
  call void @dg_safepoint()
  %m = load %Node*, %Node** %s
  %p = getelementptr %Node, %Node* %m, i32 0, i32 0
  %v = load i64, i64* %p
  ret i64 %v
}
