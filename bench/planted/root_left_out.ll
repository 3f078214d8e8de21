; A root is left out: no gcroot names %s. What it holds over the safepoint may be freed.
%Node = type { i64, %Node* }
@top = global %Node* null
declare i8* @dg_alloc(i32)
declare void @dg_safepoint()
declare void @llvm.gcroot(i8**, i8*)
declare i8* @llvm.gcread(i8*, i8**)
declare void @llvm.gcwrite(i8*, i8*, i8**)
define void @keep(i64 %n) gc "shadow-stack" {
entry:
  %s = alloca %Node*
  br label %again
again:
  call void @dg_safepoint()
  %a = call i8* @dg_alloc(i32 0)
  %x = bitcast i8* %a to %Node*
  %none = icmp eq %Node* %x, null
  br i1 %none, label %again, label %put
put:
  store %Node* %x, %Node** %s
  call void @dg_safepoint()
  %y = load %Node*, %Node** %s
  %p = getelementptr %Node, %Node* %y, i32 0, i32 0
  store i64 %n, i64* %p
  br label %again
}
