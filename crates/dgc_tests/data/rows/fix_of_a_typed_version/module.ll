%Node = type { i64, %Node* }
@top = global %Node* null
declare i8* @dg_alloc(i32)
declare void @dg_safepoint()
declare void @llvm.gcroot(i8**, i8*)
declare void @llvm.gcwrite(i8*, i8*, i8**)
define void @swap() gc "shadow-stack" {
entry:
  %s = alloca %Node*
  %r = bitcast %Node** %s to i8**
  call void @llvm.gcroot(i8** %r, i8* null)
  br label %again
again:
  call void @dg_safepoint()
  %a = call i8* @dg_alloc(i32 0)
  %new = bitcast i8* %a to %Node*
  %none = icmp eq %Node* %new, null
  br i1 %none, label %again, label %put
put:
  %old = load %Node*, %Node** @top
  store %Node* %old, %Node** %s
  %b = bitcast %Node* %new to i8*
  call void @llvm.gcwrite(i8* %b, i8* null, i8** bitcast (%Node** @top to i8**))
  %first = icmp eq %Node* %old, null
  br i1 %first, label %again, label %seen
seen:
  %p = getelementptr %Node, %Node* %old, i32 0, i32 0
  store i64 1, i64* %p
  br label %again
}
