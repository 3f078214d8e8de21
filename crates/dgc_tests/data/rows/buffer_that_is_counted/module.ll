%N = type { i64, ptr }
declare i32 @puts(ptr)
declare ptr @getenv(ptr)
declare ptr @dg_alloc(i32)
declare void @dg_safepoint()
declare void @llvm.gcroot(ptr, ptr)
declare ptr @llvm.gcread(ptr, ptr)
declare void @llvm.gcwrite(ptr, ptr, ptr)
define i32 @f(i64 %n) gc "shadow-stack" {
entry:
  %a = alloca i32, i64 %n
  %p = getelementptr i32, ptr %a, i64 %n
  store i32 1, ptr %p
  ret i32 0
}
