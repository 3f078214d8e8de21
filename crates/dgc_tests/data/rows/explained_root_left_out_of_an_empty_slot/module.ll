%Node = type { i64, ptr }
declare void @llvm.gcroot(ptr, ptr)
define void @keep() gc "shadow-stack" {
entry:
  %s = alloca ptr
  store ptr null, ptr %s
  ret void
}
