%Node = type { i64, %Node* }
@g = global %Node* null
declare i8* @dg_alloc(i32)
declare void @llvm.gcroot(i8**, i8*)
declare void @llvm.gcwrite(i8*, i8*, i8**)
define void @leak() gc "shadow-stack" {
entry:
  %s = alloca %Node*
  %r = bitcast %Node** %s to i8**
  call void @llvm.gcroot(i8** %r, i8* null)
  %a = call i8* @dg_alloc(i32 0)
  %x = bitcast i8* %a to %Node*
  %c = icmp eq %Node* %x, null
  br i1 %c, label %no, label %ok
no:
  ret void
ok:
  store %Node* %x, %Node** %s
  %y = load %Node*, %Node** %s
  %b = bitcast %Node* %y to i8*
  %f = getelementptr %Node, %Node* %x, i32 0, i32 1
  store %Node* null, %Node** %f
  call void @llvm.gcwrite(i8* %b, i8* null, i8** bitcast (%Node** @g to i8**))
  ret void
}
