%Node = type { i64, ptr }
declare void @llvm.gcroot(ptr, ptr)
define ptr @top(ptr %n) gc "shadow-stack" {
entry:
  %s = alloca ptr
  call void @llvm.gcroot(ptr %s, ptr null)
  ret ptr %s
}
