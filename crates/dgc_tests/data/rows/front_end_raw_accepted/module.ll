%Node = type { i64, %Node* }
%Row = type { i64, [4 x i64] }
@g = global %Node* null
declare i8* @dg_alloc(i32)
declare void @dg_safepoint()
declare void @llvm.gcroot(i8**, i8*)
declare i8* @llvm.gcread(i8*, i8**)
declare void @llvm.gcwrite(i8*, i8*, i8**)
define void @raw(i8* %b) gc "shadow-stack" {
entry:
  %s = alloca %Node*
  %r = bitcast %Node** %s to i8**
  call void @llvm.gcroot(i8** %r, i8* null)
  %n = bitcast i8* %b to %Node*
  store %Node* %n, %Node** %s
  ret void
}
