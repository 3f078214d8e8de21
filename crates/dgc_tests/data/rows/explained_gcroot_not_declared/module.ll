%Node = type { i64, ptr }
define void @keep() gc "shadow-stack" {
entry:
  %s = alloca ptr
  call void @llvm.gcroot(ptr %s, ptr null)
  ret void
}
