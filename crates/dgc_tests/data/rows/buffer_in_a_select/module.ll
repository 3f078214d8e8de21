%N = type { i64, ptr }
@b = private constant [2 x i8] c"b\00"
declare i32 @puts(ptr)
declare ptr @getenv(ptr)
declare ptr @dg_alloc(i32)
declare void @dg_safepoint()
declare void @llvm.gcroot(ptr, ptr)
declare ptr @llvm.gcread(ptr, ptr)
declare void @llvm.gcwrite(ptr, ptr, ptr)
define i32 @f(i1 %c) gc "shadow-stack" {
entry:
  %a = alloca [2 x i8]
  %s = select i1 %c, ptr %a, ptr @b
  %r = call i32 @puts(ptr %s)
  ret i32 0
}
