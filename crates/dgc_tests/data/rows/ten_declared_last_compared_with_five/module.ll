%Node = type { i64, %Node* }
@g = global %Node* null
declare i8* @dg_alloc(i32)
declare void @dg_safepoint()
declare void @llvm.gcroot(i8**, i8*)
declare i8* @llvm.gcread(i8*, i8**)
declare void @llvm.gcwrite(i8*, i8*, i8**)
%Arr = type { [4 x i64] }
define i64 @ten(%Arr* %a, i64 %i) gc "shadow-stack" {
entry:
  %c = icmp ult i64 %i, 5
  br i1 %c, label %in, label %out
in:
  %p = getelementptr %Arr, %Arr* %a, i32 0, i32 0, i64 %i
  %v = load i64, i64* %p
  ret i64 %v
out:
  ret i64 0
}
