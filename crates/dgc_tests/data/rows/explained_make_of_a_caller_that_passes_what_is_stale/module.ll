%Node = type { i64, ptr }
declare ptr @dg_alloc(i32)
declare void @dg_safepoint()
declare void @llvm.gcroot(ptr, ptr)
declare ptr @llvm.gcread(ptr, ptr)
declare void @llvm.gcwrite(ptr, ptr, ptr)
define i64 @first(ptr %l) gc "shadow-stack" {
entry:
  %s = alloca ptr
  call void @llvm.gcroot(ptr %s, ptr null)
  store ptr %l, ptr %s
  call void @dg_safepoint()
  ret i64 0
}
define i64 @main() gc "shadow-stack" {
entry:
  %t = alloca ptr
  call void @llvm.gcroot(ptr %t, ptr null)
  %old = load ptr, ptr %t
  call void @dg_safepoint()
  br label %go
go:
  %r = call i64 @first(ptr %old)
  ret i64 %r
}
