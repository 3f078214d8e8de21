%Node = type { i64, ptr }
declare void @llvm.gcroot(ptr, ptr)
declare ptr @llvm.gcread(ptr, ptr)
define void @top(ptr %n) gc "shadow-stack" {
entry:
  %s = alloca ptr
  call void @llvm.gcroot(ptr %s, ptr null)
  %x = call ptr @llvm.gcread(ptr null, ptr %s)
  ret void
}
