%Node = type { i64, ptr }
declare ptr @dg_alloc(i32)
declare void @llvm.gcroot(ptr, ptr)
define void @late() gc "shadow-stack" {
entry:
  %s = alloca ptr
  %a = call ptr @dg_alloc(i32 0)
  call void @llvm.gcroot(ptr %s, ptr null)
  ret void
}
