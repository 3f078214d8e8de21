%Node = type { i64, ptr }
declare ptr @dg_alloc(i32)
declare void @dg_safepoint()
declare void @llvm.gcroot(ptr, ptr)
declare void @llvm.gcwrite(ptr, ptr, ptr)
define void @two(ptr %b) gc "shadow-stack" {
entry:
  %s = alloca ptr
  %t = alloca ptr
  call void @llvm.gcroot(ptr %s, ptr null)
  call void @llvm.gcroot(ptr %t, ptr null)
  store ptr %b, ptr %t
  %x = call ptr @dg_alloc(i32 0)
  %c = icmp eq ptr %x, null
  br i1 %c, label %out, label %ok
ok:
  store ptr %x, ptr %s
  call void @dg_safepoint()
  %y = load ptr, ptr %s
  %u = load ptr, ptr %t
  %f = getelementptr %Node, ptr %y, i32 0, i32 1
  store ptr %u, ptr %f
  br label %out
out:
  ret void
}
