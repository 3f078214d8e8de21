%Node = type { i64, ptr }
declare void @dg_safepoint()
declare void @llvm.gcroot(ptr, ptr)
define i64 @keep(ptr %n) gc "shadow-stack" {
entry:
  %s = alloca ptr
  call void @llvm.gcroot(ptr %s, ptr null)
  store ptr %n, ptr %s
  call void @dg_safepoint()
  %m = load ptr, ptr %s
  %p = getelementptr %Node, ptr %m, i32 0, i32 0
  %v = load i64, ptr %p
  ret i64 %v
}
