; kept: %old.again %old
; undominated: %old.again %odd
%Node = type { i64, ptr }
@top = global ptr null
declare ptr @dg_alloc(i32)
declare void @dg_safepoint()
declare void @llvm.gcroot(ptr, ptr)
declare void @llvm.gcwrite(ptr, ptr, ptr)
define void @run() gc "shadow-stack" {
entry:
  %s = alloca ptr
  call void @llvm.gcroot(ptr %s, ptr null)
  br label %again
again:
  call void @dg_safepoint()
  %new = call ptr @dg_alloc(i32 0)
  %none = icmp eq ptr %new, null
  br i1 %none, label %other, label %put
other:
  %odd = load ptr, ptr @top
  br label %again
put:
  %old = load ptr, ptr @top
  store ptr %old, ptr %s
  call void @llvm.gcwrite(ptr %new, ptr null, ptr @top)
  call void @dg_safepoint()
  %old.again = load ptr, ptr %s
  %first = icmp eq ptr %old.again, null
  br i1 %first, label %again, label %seen
seen:
  %p = getelementptr %Node, ptr %old.again, i32 0, i32 0
  store i64 1, ptr %p
  br label %again
}
