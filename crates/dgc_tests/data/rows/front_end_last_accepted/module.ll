%Node = type { i64, %Node* }
%Row = type { i64, [4 x i64] }
@g = global %Node* null
declare i8* @dg_alloc(i32)
declare void @dg_safepoint()
declare void @llvm.gcroot(i8**, i8*)
declare i8* @llvm.gcread(i8*, i8**)
declare void @llvm.gcwrite(i8*, i8*, i8**)
define %Node* @last(%Node* %n) gc "shadow-stack" {
entry:
  %p = getelementptr %Node, %Node* %n, i32 0, i32 1
  %x = load %Node*, %Node** %p
  %c = icmp eq %Node* %x, null
  br i1 %c, label %in, label %some
some:
  br label %in
in:
  %l = phi %Node* [ %n, %entry ], [ %x, %some ]
  %q = getelementptr %Node, %Node* %l, i32 0, i32 1
  %y = load %Node*, %Node** %q
  ret %Node* %y
}
