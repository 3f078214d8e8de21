%Node = type { i64, %Node* }
@g = global %Node* null
declare i8* @dg_alloc(i32)
declare void @dg_safepoint()
declare void @llvm.gcroot(i8**, i8*)
declare i8* @llvm.gcread(i8*, i8**)
declare void @llvm.gcwrite(i8*, i8*, i8**)
define void @wait() {
entry:
  call void @dg_safepoint()
  call void @dg_safepoint()
  call void @dg_safepoint()
  ret void
}
define void @four() gc "shadow-stack" {
entry:
  %s = alloca %Node*
  %r = bitcast %Node** %s to i8**
  call void @llvm.gcroot(i8** %r, i8* null)
  %a = call i8* @dg_alloc(i32 0)
  %x = bitcast i8* %a to %Node*
  %c = icmp eq %Node* %x, null
  br i1 %c, label %no, label %ok
no:
  ret void
ok:
  store %Node* %x, %Node** %s
  call void @wait()
  %y = load %Node*, %Node** %s
  %p = getelementptr %Node, %Node* %y, i32 0, i32 0
  %v = load i64, i64* %p
  ret void
}
