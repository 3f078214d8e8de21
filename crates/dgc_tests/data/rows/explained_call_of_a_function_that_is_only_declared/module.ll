%Node = type { i64, ptr }
declare ptr @dg_alloc(i32)
declare void @dg_safepoint()
declare void @llvm.gcroot(ptr, ptr)
declare ptr @llvm.gcread(ptr, ptr)
declare void @llvm.gcwrite(ptr, ptr, ptr)
declare ptr @append(ptr, i64)
define void @main(i64 %k) gc "shadow-stack" {
entry:
  %s = alloca ptr
  call void @llvm.gcroot(ptr %s, ptr null)
  %old = load ptr, ptr %s
  %new = call ptr @append(ptr %old, i64 %k)
  store ptr %new, ptr %s
  ret void
}
