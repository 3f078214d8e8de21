%N = type { i64, ptr }
@a = private constant [2 x i8] c"a\00"
declare i32 @puts(ptr)
declare ptr @getenv(ptr)
declare ptr @dg_alloc(i32)
declare void @dg_safepoint()
declare void @llvm.gcroot(ptr, ptr)
declare ptr @llvm.gcread(ptr, ptr)
declare void @llvm.gcwrite(ptr, ptr, ptr)
define i32 @f(i64 %n) gc "shadow-stack" {
entry:
  %a = alloca ptr, i64 %n
  %p = getelementptr ptr, ptr %a, i64 %n
  store ptr @a, ptr %p
  %q = load ptr, ptr %p
  %r = call i32 @puts(ptr %q)
  ret i32 0
}
