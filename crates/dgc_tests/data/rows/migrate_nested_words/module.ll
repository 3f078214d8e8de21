%Node = type { i64, %Node* }
%Deep = type { i64, { %Node*, [2 x %Deep*] }, %Node* }
@g = global %Deep* null
@h = global i64 7
declare i8* @dg_alloc(i32)
declare void @llvm.gcroot(i8**, i8*)
define void @f() gc "shadow-stack" {
entry:
  %one = alloca %Node*
  %two = alloca %Deep*
  %b = bitcast %Deep** %two to i8**
  %a = bitcast %Node** %one to i8**
  call void @llvm.gcroot(i8** %b, i8* null)
  call void @llvm.gcroot(i8** %a, i8* null)
  %v = load i8*, i8** bitcast (%Deep** @g to i8**)
  ret void
}
