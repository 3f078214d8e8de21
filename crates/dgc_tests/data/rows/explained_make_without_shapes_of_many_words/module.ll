%Node = type { i64, ptr, [6 x ptr] }
@top = global ptr null
declare void @llvm.gcroot(ptr, ptr)
define void @keep(ptr %n) gc "shadow-stack" {
entry:
  %s = alloca ptr
  call void @llvm.gcroot(ptr %s, ptr null)
  store ptr %n, ptr %s
  ret void
}
