%A = type { i64 }
%B = type { i64, i64 }
declare ptr @dg_alloc(i32)
declare void @llvm.gcroot(ptr, ptr)
define void @f() gc "shadow-stack" {
entry:
  %s = alloca ptr
  call void @llvm.gcroot(ptr %s, ptr null)
  %x = call ptr @dg_alloc(i32 1)
  store ptr %x, ptr %s
  ret void
}
