%N = type { i64, ptr }
declare i32 @puts(ptr)
declare ptr @getenv(ptr)
declare ptr @dg_alloc(i32)
declare void @dg_safepoint()
declare void @llvm.gcroot(ptr, ptr)
declare ptr @llvm.gcread(ptr, ptr)
declare void @llvm.gcwrite(ptr, ptr, ptr)
define i32 @f() gc "shadow-stack" {
entry:
  %s = alloca %N
  %p = getelementptr %N, ptr %s, i32 0, i32 0
  store i64 7, ptr %p
  ret i32 0
}
