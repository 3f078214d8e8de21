%Node = type { i64, %Node* }
@g = global %Node* null
declare i8* @dg_alloc(i32)
declare void @dg_safepoint()
declare void @llvm.gcroot(i8**, i8*)
declare i8* @llvm.gcread(i8*, i8**)
declare void @llvm.gcwrite(i8*, i8*, i8**)
define void @push() gc "shadow-stack" {
entry:
  %s = alloca %Node*
  %r = bitcast %Node** %s to i8**
  call void @llvm.gcroot(i8** %r, i8* null)
  br label %again
again:
  call void @dg_safepoint()
  %a = call i8* @dg_alloc(i32 0)
  %x = bitcast i8* %a to %Node*
  %c = icmp eq %Node* %x, null
  br i1 %c, label %again, label %ok
ok:
  %o = load %Node*, %Node** @g
  %f = getelementptr %Node, %Node* %x, i32 0, i32 1
  store %Node* %o, %Node** %f
  store %Node* %x, %Node** @g
  br label %again
}
define void @pop() gc "shadow-stack" {
entry:
  %s = alloca %Node*
  %r = bitcast %Node** %s to i8**
  call void @llvm.gcroot(i8** %r, i8* null)
  br label %again
again:
  call void @dg_safepoint()
  %o = load %Node*, %Node** @g
  %c = icmp eq %Node* %o, null
  br i1 %c, label %again, label %ok
ok:
  store %Node* %o, %Node** %s
  %f = getelementptr %Node, %Node* %o, i32 0, i32 1
  %n = load %Node*, %Node** %f
  store %Node* %n, %Node** @g
  %y = load %Node*, %Node** %s
  %p = getelementptr %Node, %Node* %y, i32 0, i32 0
  store i64 1, i64* %p
  br label %again
}
