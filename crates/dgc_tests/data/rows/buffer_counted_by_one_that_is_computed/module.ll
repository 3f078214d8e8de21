%N = type { i64, ptr }
declare i32 @puts(ptr)
declare ptr @getenv(ptr)
declare ptr @dg_alloc(i32)
declare void @dg_safepoint()
declare void @llvm.gcroot(ptr, ptr)
declare ptr @llvm.gcread(ptr, ptr)
declare void @llvm.gcwrite(ptr, ptr, ptr)
define i32 @f(i64 %n) gc "shadow-stack" {
entry:
  %m = add i64 %n, 1
  %a = alloca i8, i64 %m
  %r = call i32 @puts(ptr %a)
  ret i32 0
}
