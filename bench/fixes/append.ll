; kept: %cell.again %cell
; undominated: %cell.again %made
%Node = type { i64, ptr }
@top = global ptr null
declare ptr @dg_alloc(i32)
declare void @dg_safepoint()
declare void @llvm.gcroot(ptr, ptr)
declare void @llvm.gcwrite(ptr, ptr, ptr)
define void @run() gc "shadow-stack" {
entry:
  %s = alloca ptr
  call void @llvm.gcroot(ptr %s, ptr null)
  br label %again
again:
  call void @dg_safepoint()
  %first = load ptr, ptr @top
  %none = icmp eq ptr %first, null
  br i1 %none, label %make, label %walk
make:
  %made = call ptr @dg_alloc(i32 0)
  %full = icmp eq ptr %made, null
  br i1 %full, label %again, label %begin
begin:
  call void @llvm.gcwrite(ptr %made, ptr null, ptr @top)
  br label %again
walk:
  %at = getelementptr %Node, ptr %first, i32 0, i32 1
  %cell = call ptr @dg_alloc(i32 0)
  %lack = icmp eq ptr %cell, null
  br i1 %lack, label %again, label %keep
keep:
  store ptr %cell, ptr %s
  call void @dg_safepoint()
  %cell.again = load ptr, ptr %s
  %head = load ptr, ptr @top
  %lost = icmp eq ptr %head, null
  br i1 %lost, label %again, label %link
link:
  %place = getelementptr %Node, ptr %head, i32 0, i32 1
  call void @llvm.gcwrite(ptr %cell.again, ptr %head, ptr %place)
  br label %again
}
