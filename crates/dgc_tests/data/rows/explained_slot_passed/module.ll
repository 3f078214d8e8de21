%Node = type { i64, ptr }
declare void @llvm.gcroot(ptr, ptr)
define void @take(ptr %n) gc "shadow-stack" {
entry:
  ret void
}
define void @top(ptr %n) gc "shadow-stack" {
entry:
  %s = alloca ptr
  call void @llvm.gcroot(ptr %s, ptr null)
  call void @take(ptr %s)
  ret void
}
