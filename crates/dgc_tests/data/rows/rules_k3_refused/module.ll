%Node = type { i64, %Node* }
declare void @dg_safepoint()
define i64 @read(%Node* %n) gc "shadow-stack" {
entry:
  call void @dg_safepoint()
  %p = getelementptr %Node, %Node* %n, i32 0, i32 0
  %v = load i64, i64* %p
  ret i64 %v
}
