%N = type { i64, ptr }
declare i32 @puts(ptr)
declare ptr @getenv(ptr)
declare ptr @dg_alloc(i32)
declare void @dg_safepoint()
declare void @llvm.gcroot(ptr, ptr)
declare ptr @llvm.gcread(ptr, ptr)
declare void @llvm.gcwrite(ptr, ptr, ptr)
define i32 @f() gc "shadow-stack" {
entry:
  %a = alloca i8, i32 16, !annotation !0
  %r = call i32 @puts(ptr %a)
  ret i32 0
}
