%Node = type { i64, ptr }
%Row = type { i64, [4 x i64] }
@g = global ptr null
declare ptr @dg_alloc(i32)
declare void @dg_safepoint()
declare void @llvm.gcroot(ptr, ptr)
declare ptr @llvm.gcread(ptr, ptr)
declare void @llvm.gcwrite(ptr, ptr, ptr)
define i64 @wide(ptr %a, i32 %i) gc "shadow-stack" {
entry:
  %c = icmp ult i32 %i, 4
  br i1 %c, label %in, label %out
in:
  %w = sext i32 %i to i64
  %p = getelementptr %Row, ptr %a, i64 0, i32 1, i64 %w
  %v = load i64, ptr %p
  ret i64 %v
out:
  ret i64 0
}
