%Node = type { i64, %Node* }
declare void @llvm.gcroot(i8**, i8*)
define i8* @top() gc "shadow-stack" {
entry:
  %s = alloca %Node*
  %r = bitcast %Node** %s to i8**
  call void @llvm.gcroot(i8** %r, i8* null)
  %x = load i8*, i8** %r
  ret i8* %x
}
