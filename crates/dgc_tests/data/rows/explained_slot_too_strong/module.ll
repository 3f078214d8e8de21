%Node = type { i64, ptr }
declare void @dg_safepoint()
declare void @llvm.gcroot(ptr, ptr)
define void @to(ptr %n) gc "shadow-stack" {
entry:
  %s = alloca ptr
  call void @llvm.gcroot(ptr %s, ptr null)
  store ptr %n, ptr %s
  br label %next
next:
  ret void
}
