%Node = type { i64, %Node* }
declare void @dg_safepoint()
declare void @llvm.gcroot(i8**, i8*)
define i64 @first(%Node* %n) gc "shadow-stack" {
entry:
  %s = alloca %Node*
  %r = bitcast %Node** %s to i8**
  call void @llvm.gcroot(i8** %r, i8* null)
  store %Node* %n, %Node** %s
  call void @dg_safepoint()
  %p = getelementptr %Node, %Node* %n, i32 0, i32 0
  %v = load i64, i64* %p
  ret i64 %v
}
