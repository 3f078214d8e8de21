%Node = type { i64, ptr }
declare void @llvm.gcroot(ptr, ptr)
define i1 @top(ptr %n) gc "shadow-stack" {
entry:
  %s = alloca ptr
  call void @llvm.gcroot(ptr %s, ptr null)
  %c = icmp eq ptr %s, null
  ret i1 %c
}
