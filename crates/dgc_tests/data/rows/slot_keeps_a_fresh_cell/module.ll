%Node = type { i64, %Node* }
declare i8* @dg_alloc(i32)
declare void @llvm.gcroot(i8**, i8*)
define void @keep() gc "shadow-stack" {
entry:
  %s = alloca %Node*
  %r = bitcast %Node** %s to i8**
  call void @llvm.gcroot(i8** %r, i8* null)
  %a = call i8* @dg_alloc(i32 0)
  %x = bitcast i8* %a to %Node*
  store %Node* %x, %Node** %s
  %y = load %Node*, %Node** %s
  %c = icmp eq %Node* %y, null
  br i1 %c, label %no, label %ok
no:
  ret void
ok:
  %z = load %Node*, %Node** %s
  %p = getelementptr %Node, %Node* %z, i32 0, i32 1
  store %Node* null, %Node** %p
  ret void
}
