%A = type { i64, i64 }
%B = type { i64 }
declare void @llvm.gcroot(ptr, ptr)
define void @give(ptr %b) gc "shadow-stack" {
entry:
  %s = alloca ptr
  call void @llvm.gcroot(ptr %s, ptr null)
  store ptr %b, ptr %s
  ret void
}
