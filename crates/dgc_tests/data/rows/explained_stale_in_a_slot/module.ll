%Node = type { i64, ptr }
declare void @dg_safepoint()
declare void @llvm.gcroot(ptr, ptr)
define void @give(ptr %n) gc "shadow-stack" {
entry:
  %s = alloca ptr
  call void @llvm.gcroot(ptr %s, ptr null)
  call void @dg_safepoint()
  store ptr %n, ptr %s
  ret void
}
