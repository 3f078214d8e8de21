; kept: %new.again %new
; undominated: %new.again %rest
%Node = type { i64, ptr }
@top = global ptr null
declare ptr @dg_alloc(i32)
declare void @dg_safepoint()
declare void @llvm.gcroot(ptr, ptr)
declare void @llvm.gcwrite(ptr, ptr, ptr)
define void @run() gc "shadow-stack" {
entry:
  %s = alloca ptr
  call void @llvm.gcroot(ptr %s, ptr null)
  br label %again
again:
  call void @dg_safepoint()
  %new = call ptr @dg_alloc(i32 0)
  %none = icmp eq ptr %new, null
  br i1 %none, label %empty, label %put
empty:
  %rest = load ptr, ptr @top
  call void @llvm.gcwrite(ptr %rest, ptr null, ptr @top)
  br label %again
put:
  store ptr %new, ptr %s
  call void @dg_safepoint()
  %new.again = load ptr, ptr %s
  %old = load ptr, ptr @top
  %gone = icmp eq ptr %new.again, null
  br i1 %gone, label %again, label %link
link:
  %next = getelementptr %Node, ptr %new.again, i32 0, i32 1
  call void @llvm.gcwrite(ptr %old, ptr %new.again, ptr %next)
  call void @llvm.gcwrite(ptr %new.again, ptr null, ptr @top)
  br label %again
}
