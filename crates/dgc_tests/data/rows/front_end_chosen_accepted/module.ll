%Node = type { i64, %Node* }
%Row = type { i64, [4 x i64] }
@g = global %Node* null
declare i8* @dg_alloc(i32)
declare void @dg_safepoint()
declare void @llvm.gcroot(i8**, i8*)
declare i8* @llvm.gcread(i8*, i8**)
declare void @llvm.gcwrite(i8*, i8*, i8**)
define i64 @chosen(%Row* %a, i1 %c) gc "shadow-stack" {
entry:
  %i = select i1 %c, i64 0, i64 1
  %w = and i64 %i, 1
  %p = getelementptr %Row, %Row* %a, i64 0, i32 1, i64 %w
  %v = load i64, i64* %p
  ret i64 %v
}
