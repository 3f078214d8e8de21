%E = type { i64 }
%Node = type { i32, %Node* }
@top = global %Node* null
declare i8* @dg_alloc(i32)
declare void @llvm.gcroot(i8**, i8*)
declare void @llvm.gcwrite(i8*, i8*, i8**)
define void @f(%Node* %n) gc "shadow-stack" {
entry:
  %s = alloca %Node*
  %c = bitcast %Node** %s to i8**
  call void @llvm.gcroot(i8** %c, i8* null)
  %raw = call i8* @dg_alloc(i32 1)
  call void @llvm.gcwrite(i8* %raw, i8* null, i8** bitcast (%Node** @top to i8**))
  %p = getelementptr %Node, %Node* %n, i32 0, i32 0
  store i32 9, i32* %p
  ret void
}
