%Node = type { i64, ptr }
%Row = type { i64, [4 x i64] }
@g = global ptr null
declare ptr @dg_alloc(i32)
declare void @dg_safepoint()
declare void @llvm.gcroot(ptr, ptr)
declare ptr @llvm.gcread(ptr, ptr)
declare void @llvm.gcwrite(ptr, ptr, ptr)
define i64 @bytes(ptr %a) gc "shadow-stack" {
entry:
  %p = getelementptr i64, ptr %a, i64 1
  ret i64 0
}
