; No reload after safepoints: %y is what @top held before them, and another thread takes that out meanwhile.
%Node = type { i64, %Node* }
@top = global %Node* null
declare i8* @dg_alloc(i32)
declare void @dg_safepoint()
declare void @llvm.gcroot(i8**, i8*)
declare i8* @llvm.gcread(i8*, i8**)
declare void @llvm.gcwrite(i8*, i8*, i8**)
define void @take(i64 %n) gc "shadow-stack" {
entry:
  br label %again
again:
  call void @dg_safepoint()
  %y = load %Node*, %Node** @top
  %empty = icmp eq %Node* %y, null
  br i1 %empty, label %again, label %wait
wait:
  %i = phi i64 [ 0, %again ], [ %j, %wait ]
  call void @dg_safepoint()
  %j = add i64 %i, 1
  %more = icmp ult i64 %j, %n
  br i1 %more, label %wait, label %use
use:
  %p = getelementptr %Node, %Node* %y, i32 0, i32 0
  store i64 %n, i64* %p
  br label %again
}

define void @give() gc "shadow-stack" {
entry:
  br label %again
again:
  call void @dg_safepoint()
  %a = call i8* @dg_alloc(i32 0)
  %x = bitcast i8* %a to %Node*
  %none = icmp eq %Node* %x, null
  br i1 %none, label %again, label %put
put:
  call void @llvm.gcwrite(i8* %a, i8* null, i8** bitcast (%Node** @top to i8**))
  br label %again
}
