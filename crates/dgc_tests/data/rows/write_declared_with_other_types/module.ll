%Node = type { i64, %Node* }
declare void @llvm.gcwrite(%Node*, %Node*, %Node**)
define void @f(%Node* %n) gc "shadow-stack" {
entry:
  %p = getelementptr %Node, %Node* %n, i32 0, i32 1
  call void @llvm.gcwrite(%Node* %n, %Node* %n, %Node** %p)
  ret void
}
