%Node = type { i64, %Node* }
@g = global %Node* null
declare i8* @dg_alloc(i32)
declare void @dg_safepoint()
declare void @llvm.gcroot(i8**, i8*)
declare i8* @llvm.gcread(i8*, i8**)
declare void @llvm.gcwrite(i8*, i8*, i8**)
define void @keep() gc "shadow-stack" {
entry:
  %s = alloca %Node*
  %r = bitcast %Node** %s to i8**
  call void @llvm.gcroot(i8** %r, i8* null)
  %a = call i8* @dg_alloc(i32 0)
  call void @llvm.gcwrite(i8* %a, i8* null, i8** bitcast (%Node** @g to i8**))
  call void @dg_safepoint()
  call void @dg_safepoint()
  call void @dg_safepoint()
  %x = load %Node*, %Node** @g
  call void @llvm.gcwrite(i8* null, i8* null, i8** bitcast (%Node** @g to i8**))
  store %Node* %x, %Node** %s
  %p = getelementptr %Node, %Node* %x, i32 0, i32 0
  %v = load i64, i64* %p
  ret void
}
