%Node = type { i64, %Node* }
%Row = type { i64, [4 x i64] }
@g = global %Node* null
declare i8* @dg_alloc(i32)
declare void @dg_safepoint()
declare void @llvm.gcroot(i8**, i8*)
declare i8* @llvm.gcread(i8*, i8**)
declare void @llvm.gcwrite(i8*, i8*, i8**)
define i64 @bytes(%Row* %a) gc "shadow-stack" {
entry:
  %b = bitcast %Row* %a to i8*
  %p = getelementptr %Row, %Row* %a, i64 0, i32 1, i64 0
  ret i64 0
}
