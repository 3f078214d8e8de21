%Node = type { i64, %Node* }
declare void @dg_safepoint()
declare void @llvm.gcroot(i8**, i8*)
define i64 @keep(%Node* %n) gc "shadow-stack" {
entry:
  %s = alloca %Node*
  %root.s = bitcast %Node** %s to i8**
  call void @llvm.gcroot(i8** %root.s, i8* null)
  store %Node* %n, %Node** %s
  call void @dg_safepoint()
  %m = load %Node*, %Node** %s
  %p = getelementptr %Node, %Node* %m, i32 0, i32 0
  %v = load i64, i64* %p
  ret i64 %v
}
