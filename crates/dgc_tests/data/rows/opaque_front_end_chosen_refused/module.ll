%Node = type { i64, ptr }
%Row = type { i64, [4 x i64] }
@g = global ptr null
declare ptr @dg_alloc(i32)
declare void @dg_safepoint()
declare void @llvm.gcroot(ptr, ptr)
declare ptr @llvm.gcread(ptr, ptr)
declare void @llvm.gcwrite(ptr, ptr, ptr)
define i64 @chosen(ptr %a, i1 %c) gc "shadow-stack" {
entry:
  %p = getelementptr %Row, ptr %a, i64 0, i32 1, i64 0
  %q = getelementptr %Row, ptr %a, i64 0, i32 1, i64 1
  %s = select i1 %c, ptr %p, ptr %q
  %v = load i64, ptr %s
  ret i64 %v
}
