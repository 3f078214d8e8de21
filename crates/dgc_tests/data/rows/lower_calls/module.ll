%Node = type { i64, ptr }
declare ptr @dg_alloc(i32)
declare void @dg_safepoint()
declare void @llvm.gcroot(ptr, ptr)
declare ptr @llvm.gcread(ptr, ptr)
declare void @llvm.gcwrite(ptr, ptr, ptr)
define ptr @f(ptr %n) gc "shadow-stack" {
entry:
  %s = alloca ptr
  call void @llvm.gcroot(ptr %s, ptr null)
  store ptr %n, ptr %s
  tail call void @dg_safepoint()
  %new = call noalias ptr @dg_alloc(i32 0)
  %m = load ptr, ptr %s
  %p = getelementptr %Node, ptr %m, i32 0, i32 1
  %r = call ptr @llvm.gcread(ptr %m, ptr %p)
  call void @llvm.gcwrite(ptr %r, ptr %m, ptr %p)
  %q = call ptr @f(ptr %r)
  ret ptr %q
}
