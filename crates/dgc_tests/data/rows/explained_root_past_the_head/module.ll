%Node = type { i64, ptr }
declare void @dg_safepoint()
declare void @llvm.gcroot(ptr, ptr)
define void @late(ptr %n) gc "shadow-stack" {
entry:
  %s = alloca ptr
  call void @dg_safepoint()
  call void @llvm.gcroot(ptr %s, ptr null)
  ret void
}
