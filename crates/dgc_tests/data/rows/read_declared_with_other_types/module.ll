%Node = type { i64, %Node* }
declare %Node* @llvm.gcread(%Node*, %Node**)
define void @f(%Node* %n) gc "shadow-stack" {
entry:
  %p = getelementptr %Node, %Node* %n, i32 0, i32 1
  %q = call %Node* @llvm.gcread(%Node* %n, %Node** %p)
  ret void
}
