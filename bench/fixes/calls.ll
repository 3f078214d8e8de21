; kept: %mine.again %mine
; undominated: %mine.again %spare
%Node = type { i64, ptr }
@top = global ptr null
declare ptr @dg_alloc(i32)
declare void @dg_safepoint()
declare void @llvm.gcroot(ptr, ptr)
declare void @llvm.gcwrite(ptr, ptr, ptr)
define void @keep(ptr %cell) gc "shadow-stack" {
entry:
  %t = alloca ptr
  call void @llvm.gcroot(ptr %t, ptr null)
  store ptr %cell, ptr %t
  call void @dg_safepoint()
  %cell.now = load ptr, ptr %t
  call void @llvm.gcwrite(ptr %cell.now, ptr null, ptr @top)
  ret void
}
define void @run() gc "shadow-stack" {
entry:
  %s = alloca ptr
  call void @llvm.gcroot(ptr %s, ptr null)
  br label %again
again:
  call void @dg_safepoint()
  %mine = call ptr @dg_alloc(i32 0)
  %none = icmp eq ptr %mine, null
  br i1 %none, label %other, label %hand
other:
  %spare = load ptr, ptr @top
  br label %again
hand:
  store ptr %mine, ptr %s
  call void @keep(ptr %mine)
  %mine.again = load ptr, ptr %s
  call void @llvm.gcwrite(ptr %mine.again, ptr null, ptr @top)
  br label %again
}
