%N = type { i64, ptr }
declare i32 @puts(ptr)
declare ptr @getenv(ptr)
declare ptr @dg_alloc(i32)
declare void @dg_safepoint()
declare void @llvm.gcroot(ptr, ptr)
declare ptr @llvm.gcread(ptr, ptr)
declare void @llvm.gcwrite(ptr, ptr, ptr)
%P = type { i32, i32 }
define i32 @f() gc "shadow-stack" {
entry:
  %s = alloca %P
  %p = getelementptr %P, ptr %s, i32 0, i32 1
  store i32 7, ptr %p
  %n = load i32, ptr %p
  ret i32 %n
}
