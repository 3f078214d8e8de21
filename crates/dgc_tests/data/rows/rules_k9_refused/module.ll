%Node = type { i64, %Node* }
declare i8* @dg_alloc(i32)
declare void @llvm.gcroot(i8**, i8*)
define void @late() gc "shadow-stack" {
entry:
  %s = alloca %Node*
  %r = bitcast %Node** %s to i8**
  %a = call i8* @dg_alloc(i32 0)
  call void @llvm.gcroot(i8** %r, i8* null)
  ret void
}
