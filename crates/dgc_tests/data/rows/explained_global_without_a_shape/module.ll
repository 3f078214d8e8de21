%Node = type { i64, ptr }
@g = global ptr null
declare void @llvm.gcroot(ptr, ptr)
define void @h() gc "shadow-stack" {
entry:
  %s = alloca ptr
  call void @llvm.gcroot(ptr %s, ptr null)
  ret void
}
