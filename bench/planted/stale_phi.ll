; A reference goes round a loop in a register, over a safepoint.
%Node = type { i64, %Node* }
@top = global %Node* null
declare i8* @dg_alloc(i32)
declare void @dg_safepoint()
declare void @llvm.gcroot(i8**, i8*)
declare i8* @llvm.gcread(i8*, i8**)
declare void @llvm.gcwrite(i8*, i8*, i8**)
define void @count(i64 %n) gc "shadow-stack" {
entry:
  br label %again
again:
  call void @dg_safepoint()
  %a = call i8* @dg_alloc(i32 0)
  %x = bitcast i8* %a to %Node*
  %none = icmp eq %Node* %x, null
  br i1 %none, label %again, label %loop
loop:
  %i = phi i64 [ 0, %again ], [ %j, %next ]
  %q = phi %Node* [ %x, %again ], [ %q, %next ]
  %p = getelementptr %Node, %Node* %q, i32 0, i32 0
  store i64 %i, i64* %p
  %j = add i64 %i, 1
  %done = icmp uge i64 %j, %n
  br i1 %done, label %again, label %next
next:
  call void @dg_safepoint()
  br label %loop
}
