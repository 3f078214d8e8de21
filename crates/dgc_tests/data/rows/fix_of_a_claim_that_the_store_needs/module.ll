%Node = type { i64, ptr }
@top = global ptr null
declare ptr @dg_alloc(i32)
declare void @dg_safepoint()
declare void @llvm.gcroot(ptr, ptr)
declare void @llvm.gcwrite(ptr, ptr, ptr)
define void @swap() gc "shadow-stack" {
entry:
  %s = alloca ptr
  call void @llvm.gcroot(ptr %s, ptr null)
  br label %again
again:
  call void @dg_safepoint()
  %new = call ptr @dg_alloc(i32 0)
  %none = icmp eq ptr %new, null
  br i1 %none, label %again, label %put
put:
  %old = load ptr, ptr @top
  store ptr %old, ptr %s
  store ptr %new, ptr @top
  %first = icmp eq ptr %old, null
  br i1 %first, label %again, label %seen
seen:
  %p = getelementptr %Node, ptr %old, i32 0, i32 0
  store i64 1, ptr %p
  br label %again
}
