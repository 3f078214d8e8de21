; kept: %cell.again %cell
; undominated: %cell.again %far
%Node = type { i64, ptr }
@top = global ptr null
@other = global ptr null
declare ptr @dg_alloc(i32)
declare void @dg_safepoint()
declare void @llvm.gcroot(ptr, ptr)
declare void @llvm.gcwrite(ptr, ptr, ptr)
define void @run() gc "shadow-stack" {
entry:
  %s = alloca ptr
  call void @llvm.gcroot(ptr %s, ptr null)
  br label %again
again:
  call void @dg_safepoint()
  %cell = call ptr @dg_alloc(i32 0)
  %none = icmp eq ptr %cell, null
  br i1 %none, label %turn, label %keep
turn:
  %far = load ptr, ptr @other
  call void @llvm.gcwrite(ptr %far, ptr null, ptr @top)
  call void @llvm.gcwrite(ptr null, ptr null, ptr @other)
  br label %again
keep:
  store ptr %cell, ptr %s
  call void @dg_safepoint()
  %cell.again = load ptr, ptr %s
  %gone = icmp eq ptr %cell.again, null
  br i1 %gone, label %again, label %close
close:
  %next = getelementptr %Node, ptr %cell.again, i32 0, i32 1
  call void @llvm.gcwrite(ptr %cell.again, ptr %cell.again, ptr %next)
  call void @llvm.gcwrite(ptr %cell.again, ptr null, ptr @other)
  br label %again
}
