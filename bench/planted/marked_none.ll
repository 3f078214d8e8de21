; A callee is taken for one that reaches no safepoint: %x stays in a register over the call.
%Node = type { i64, %Node* }
@top = global %Node* null
declare i8* @dg_alloc(i32)
declare void @dg_safepoint()
declare void @llvm.gcroot(i8**, i8*)
declare i8* @llvm.gcread(i8*, i8**)
declare void @llvm.gcwrite(i8*, i8*, i8**)
define void @rest() gc "shadow-stack" {
entry:
  call void @dg_safepoint()
  ret void
}
define void @make(i64 %n) gc "shadow-stack" {
entry:
  br label %again
again:
  call void @dg_safepoint()
  %a = call i8* @dg_alloc(i32 0)
  %x = bitcast i8* %a to %Node*
  %none = icmp eq %Node* %x, null
  br i1 %none, label %again, label %put
put:
  call void @rest()
  %p = getelementptr %Node, %Node* %x, i32 0, i32 0
  store i64 %n, i64* %p
  br label %again
}
