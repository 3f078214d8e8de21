%Node = type { i64, ptr }
@g = global ptr null
declare ptr @dg_alloc(i32)
declare void @dg_safepoint()
declare void @llvm.gcroot(ptr, ptr)
declare ptr @llvm.gcread(ptr, ptr)
declare void @llvm.gcwrite(ptr, ptr, ptr)
define void @f() gc "shadow-stack" {
entry:
  %new = call ptr @dg_alloc(i32 0)
  call void @llvm.gcwrite(ptr %new, ptr %new, ptr %new)
  ret void
}
