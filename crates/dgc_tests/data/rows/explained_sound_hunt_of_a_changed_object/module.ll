%Node = type { i64, ptr }
declare ptr @dg_alloc(i32)
declare void @dg_safepoint()
declare void @llvm.gcroot(ptr, ptr)
declare ptr @llvm.gcread(ptr, ptr)
declare void @llvm.gcwrite(ptr, ptr, ptr)
define void @put(ptr %value, ptr %object) gc "shadow-stack" {
entry:
  %bad = icmp eq ptr %object, null
  br i1 %bad, label %out, label %ok
ok:
  %f = getelementptr %Node, ptr %object, i32 0, i32 1
  call void @llvm.gcwrite(ptr %object, ptr %value, ptr %f)
  ret void
out:
  ret void
}
define void @idle() {
entry:
  ret void
}
