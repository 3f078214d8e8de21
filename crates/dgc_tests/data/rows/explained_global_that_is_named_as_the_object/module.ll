%Node = type { i64, ptr }
declare ptr @dg_alloc(i32)
declare void @dg_safepoint()
declare void @llvm.gcroot(ptr, ptr)
declare ptr @llvm.gcread(ptr, ptr)
declare void @llvm.gcwrite(ptr, ptr, ptr)
@g = global ptr null
define void @w() gc "shadow-stack" {
entry:
  call void @llvm.gcwrite(ptr null, ptr @g, ptr @g)
  ret void
}
