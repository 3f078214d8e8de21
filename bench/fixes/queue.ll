; kept: %item.again %item
; undominated: %item.again %last
%Item = type { i64, ptr }
%Queue = type { ptr, ptr }
@queue = global ptr null
declare ptr @dg_alloc(i32)
declare void @dg_safepoint()
declare void @llvm.gcroot(ptr, ptr)
declare void @llvm.gcwrite(ptr, ptr, ptr)
define void @run() gc "shadow-stack" {
entry:
  %s = alloca ptr
  call void @llvm.gcroot(ptr %s, ptr null)
  br label %again
again:
  call void @dg_safepoint()
  %queue = load ptr, ptr @queue
  %none = icmp eq ptr %queue, null
  br i1 %none, label %make, label %enter
make:
  %fresh = call ptr @dg_alloc(i32 1)
  %full = icmp eq ptr %fresh, null
  br i1 %full, label %again, label %begin
begin:
  call void @llvm.gcwrite(ptr %fresh, ptr null, ptr @queue)
  br label %again
enter:
  %item = call ptr @dg_alloc(i32 0)
  %lack = icmp eq ptr %item, null
  br i1 %lack, label %leave, label %keep
leave:
  %tail = getelementptr %Queue, ptr %queue, i32 0, i32 1
  %last = load ptr, ptr %tail
  %head = getelementptr %Queue, ptr %queue, i32 0, i32 0
  call void @llvm.gcwrite(ptr %last, ptr %queue, ptr %head)
  br label %again
keep:
  store ptr %item, ptr %s
  call void @dg_safepoint()
  %item.again = load ptr, ptr %s
  %owner = load ptr, ptr @queue
  %lost = icmp eq ptr %owner, null
  br i1 %lost, label %again, label %link
link:
  %place = getelementptr %Queue, ptr %owner, i32 0, i32 1
  call void @llvm.gcwrite(ptr %item.again, ptr %owner, ptr %place)
  br label %again
}
