%Node = type { i64, %Node* }
declare void @llvm.gcroot(i8**, i8*)
define void @keep(%Node* %n) gc "shadow-stack" {
entry:
  %s = alloca %Node*
  %r = bitcast %Node** %s to i8**
  call void @llvm.gcroot(i8** %r, i8* null)
  store %Node* %n, %Node** %s
  ret void
}
