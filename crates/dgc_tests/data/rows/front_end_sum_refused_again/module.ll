%Node = type { i64, %Node* }
%Row = type { i64, [4 x i64] }
@g = global %Node* null
declare i8* @dg_alloc(i32)
declare void @dg_safepoint()
declare void @llvm.gcroot(i8**, i8*)
declare i8* @llvm.gcread(i8*, i8**)
declare void @llvm.gcwrite(i8*, i8*, i8**)
define i64 @sum(%Row* %a) gc "shadow-stack" {
entry:
  br label %head
head:
  %i = phi i64 [ 0, %entry ], [ %j, %body ]
  %s = phi i64 [ 0, %entry ], [ %t, %body ]
  %e = icmp slt i64 %i, 4
  br i1 %e, label %body, label %out
body:
  %p = getelementptr %Row, %Row* %a, i64 0, i32 1, i64 %i
  %v = load i64, i64* %p
  %t = add i64 %s, %v
  %j = add i64 %i, 1
  br label %head
out:
  ret i64 %s
}
