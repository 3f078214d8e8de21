%Node = type { i64, %Node* }
@g = global %Node* null
declare i8* @dg_alloc(i32)
declare void @dg_safepoint()
declare void @llvm.gcroot(i8**, i8*)
declare i8* @llvm.gcread(i8*, i8**)
declare void @llvm.gcwrite(i8*, i8*, i8**)
define void @in_turn() gc "shadow-stack" {
entry:
  %s = alloca %Node*
  %r = bitcast %Node** %s to i8**
  call void @llvm.gcroot(i8** %r, i8* null)
  %a = call i8* @dg_alloc(i32 0)
  %x = bitcast i8* %a to %Node*
  %b = call i8* @dg_alloc(i32 0)
  %y = bitcast i8* %b to %Node*
  br label %loop
loop:
  %now = phi %Node* [ %x, %entry ], [ %next, %loop ]
  %next = phi %Node* [ %y, %entry ], [ %now, %loop ]
  store %Node* %now, %Node** %s
  call void @dg_safepoint()
  br label %loop
}
