%Node = type { i64, ptr }
declare ptr @dg_alloc(i32)
declare void @dg_safepoint()
declare void @llvm.gcroot(ptr, ptr)
declare ptr @llvm.gcread(ptr, ptr)
declare void @llvm.gcwrite(ptr, ptr, ptr)
define i64 @main() gc "shadow-stack" {
entry:
  %t = alloca ptr
  call void @llvm.gcroot(ptr %t, ptr null)
  %r = call ptr @last()
  store ptr %r, ptr %t
  ret i64 0
}
define ptr @last() gc "shadow-stack" {
entry:
  %s = alloca ptr
  call void @llvm.gcroot(ptr %s, ptr null)
  %old = load ptr, ptr %s
  call void @dg_safepoint()
  br label %go
go:
  ret ptr %old
}
