; A function returns what it claimed before a safepoint, and its caller puts that into @top.
%Node = type { i64, %Node* }
@top = global %Node* null
declare i8* @dg_alloc(i32)
declare void @dg_safepoint()
declare void @llvm.gcroot(i8**, i8*)
declare i8* @llvm.gcread(i8*, i8**)
declare void @llvm.gcwrite(i8*, i8*, i8**)
define %Node* @new() gc "shadow-stack" {
entry:
  %a = call i8* @dg_alloc(i32 0)
  %x = bitcast i8* %a to %Node*
  %none = icmp eq %Node* %x, null
  call void @dg_safepoint()
  ret %Node* %x
}
define void @give() gc "shadow-stack" {
entry:
  br label %again
again:
  %x = call %Node* @new()
  %v = bitcast %Node* %x to i8*
  call void @llvm.gcwrite(i8* %v, i8* null, i8** bitcast (%Node** @top to i8**))
  br label %again
}
