%Node = type { i64, %Node* }
@g = global %Node* null
declare i8* @dg_alloc(i32)
declare void @dg_safepoint()
declare void @llvm.gcroot(i8**, i8*)
declare i8* @llvm.gcread(i8*, i8**)
declare void @llvm.gcwrite(i8*, i8*, i8**)
define void @claimer() gc "shadow-stack" {
entry:
  %s = alloca %Node*
  %r = bitcast %Node** %s to i8**
  call void @llvm.gcroot(i8** %r, i8* null)
  br label %again
again:
  call void @dg_safepoint()
  %a = call i8* @dg_alloc(i32 0)
  %x = bitcast i8* %a to %Node*
  store %Node* %x, %Node** %s
  call void @llvm.gcwrite(i8* %a, i8* null, i8** bitcast (%Node** @g to i8**))
  br label %again
}
