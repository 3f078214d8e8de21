; A wrong layout number: dg_alloc(i32 1) makes a Leaf of one word, and its second word is used.
%Node = type { i64, %Node* }
%Leaf = type { i64 }
@top = global %Node* null
declare i8* @dg_alloc(i32)
declare void @dg_safepoint()
declare void @llvm.gcroot(i8**, i8*)
declare i8* @llvm.gcread(i8*, i8**)
declare void @llvm.gcwrite(i8*, i8*, i8**)
define void @make() gc "shadow-stack" {
entry:
  br label %again
again:
  call void @dg_safepoint()
  %a = call i8* @dg_alloc(i32 1)
  %x = bitcast i8* %a to %Node*
  %none = icmp eq %Node* %x, null
  br i1 %none, label %again, label %put
put:
  %f = getelementptr %Node, %Node* %x, i32 0, i32 1
  store %Node* null, %Node** %f
  br label %again
}
