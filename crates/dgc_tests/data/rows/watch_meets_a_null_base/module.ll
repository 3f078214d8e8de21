%Node = type { i64, %Node* }
@g = global %Node* null
declare i8* @dg_alloc(i32)
declare void @dg_safepoint()
declare void @llvm.gcroot(i8**, i8*)
declare i8* @llvm.gcread(i8*, i8**)
declare void @llvm.gcwrite(i8*, i8*, i8**)
define i64 @f() gc "shadow-stack" {
entry:
  %p = getelementptr %Node, %Node* null, i32 0, i32 0
  %v = load i64, i64* %p
  ret i64 %v
}
