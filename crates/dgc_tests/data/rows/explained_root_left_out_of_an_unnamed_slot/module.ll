%Node = type { i64, %Node* }
declare void @dg_safepoint()
declare void @llvm.gcroot(i8**, i8*)
define i64 @keep(%Node* %0) gc "shadow-stack" {
  %2 = alloca %Node*
  %root.2 = alloca i64
  store %Node* %0, %Node** %2
  ret i64 0
}
