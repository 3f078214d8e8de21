%Node = type { i64, ptr }
declare void @llvm.gcroot(ptr, ptr)
define ptr @top() gc "shadow-stack" {
entry:
  %s = alloca ptr
  call void @llvm.gcroot(ptr %s, ptr null)
  %x = load ptr, ptr %s
  ret ptr %x
}
