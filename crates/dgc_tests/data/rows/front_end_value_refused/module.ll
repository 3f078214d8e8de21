%Node = type { i64, %Node* }
%Row = type { i64, [4 x i64] }
@g = global %Node* null
declare i8* @dg_alloc(i32)
declare void @dg_safepoint()
declare void @llvm.gcroot(i8**, i8*)
declare i8* @llvm.gcread(i8*, i8**)
declare void @llvm.gcwrite(i8*, i8*, i8**)
define i64 @value(%Node* %n, i1 %c) gc "shadow-stack" {
entry:
  %t = icmp ne %Node* %n, null
  %w = and i1 %t, %c
  br i1 %w, label %in, label %out
in:
  %p = getelementptr %Node, %Node* %n, i32 0, i32 0
  %v = load i64, i64* %p
  ret i64 %v
out:
  ret i64 0
}
