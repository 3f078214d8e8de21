; No reload after a call that reaches safepoints: %left is in no root slot while the right branch is built.
%Tree = type { %Tree*, %Tree*, i64 }
declare i8* @dg_alloc(i32)
declare void @dg_safepoint()
declare void @llvm.gcroot(i8**, i8*)
declare i8* @llvm.gcread(i8*, i8**)
declare void @llvm.gcwrite(i8*, i8*, i8**)
define %Tree* @build(i64 %depth) gc "shadow-stack" {
entry:
  %s = alloca %Tree*
  %r = bitcast %Tree** %s to i8**
  call void @llvm.gcroot(i8** %r, i8* null)
  %a = call i8* @dg_alloc(i32 0)
  %t = bitcast i8* %a to %Tree*
  %none = icmp eq %Tree* %t, null
  br i1 %none, label %no, label %some
no:
  ret %Tree* null
some:
  store %Tree* %t, %Tree** %s
  call void @dg_safepoint()
  %leaf = icmp eq i64 %depth, 0
  br i1 %leaf, label %done, label %deeper
deeper:
  %less = sub i64 %depth, 1
  %left = call %Tree* @build(i64 %less)
  %right = call %Tree* @build(i64 %less)
  %here = load %Tree*, %Tree** %s
  %o = bitcast %Tree* %here to i8*
  %v = bitcast %Tree* %left to i8*
  %f = getelementptr %Tree, %Tree* %here, i32 0, i32 0
  %p = bitcast %Tree** %f to i8**
  call void @llvm.gcwrite(i8* %v, i8* %o, i8** %p)
  %w = bitcast %Tree* %right to i8*
  %g = getelementptr %Tree, %Tree* %here, i32 0, i32 1
  %q = bitcast %Tree** %g to i8**
  call void @llvm.gcwrite(i8* %w, i8* %o, i8** %q)
  br label %done
done:
  %made = load %Tree*, %Tree** %s
  ret %Tree* %made
}
define void @trees() gc "shadow-stack" {
entry:
  br label %again
again:
  call void @dg_safepoint()
  %t = call %Tree* @build(i64 1)
  br label %again
}
