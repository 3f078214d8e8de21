%N = type { i64, ptr }
@a = private constant [2 x i8] c"a\00"
@b = private constant [2 x i8] c"b\00"
@table = private constant [4 x i32] [i32 1, i32 2, i32 3, i32 4]
@stderr = external global ptr
@count = external global i32
declare i32 @puts(ptr)
declare ptr @getenv(ptr)
declare ptr @dg_alloc(i32)
declare void @dg_safepoint()
declare void @llvm.gcroot(ptr, ptr)
declare ptr @llvm.gcread(ptr, ptr)
declare void @llvm.gcwrite(ptr, ptr, ptr)
define i32 @f() gc "shadow-stack" {
entry:
  %s = alloca i64
  %a = alloca i8, i64 %s
  ret i32 0
}
