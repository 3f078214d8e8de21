%N = type { i64, ptr }
declare i32 @puts(ptr)
declare ptr @getenv(ptr)
declare ptr @dg_alloc(i32)
declare void @dg_safepoint()
declare void @llvm.gcroot(ptr, ptr)
declare ptr @llvm.gcread(ptr, ptr)
declare void @llvm.gcwrite(ptr, ptr, ptr)
define i32 @f() gc "shadow-stack" {
entry:
  %a = alloca [2 x i8]
  %b = alloca [2 x i8]
  %c = icmp eq ptr %a, %b
  %w = zext i1 %c to i32
  ret i32 %w
}
