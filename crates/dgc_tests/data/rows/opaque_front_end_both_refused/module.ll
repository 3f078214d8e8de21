%Node = type { i64, ptr }
%Row = type { i64, [4 x i64] }
@g = global ptr null
declare ptr @dg_alloc(i32)
declare void @dg_safepoint()
declare void @llvm.gcroot(ptr, ptr)
declare ptr @llvm.gcread(ptr, ptr)
declare void @llvm.gcwrite(ptr, ptr, ptr)
define i64 @both(ptr %a, i64 %i, i1 %c) gc "shadow-stack" {
entry:
  %t = icmp ult i64 %i, 4
  %w = and i1 %t, %c
  br i1 %w, label %in, label %out
in:
  %p = getelementptr %Row, ptr %a, i64 0, i32 1, i64 %i
  %v = load i64, ptr %p
  ret i64 %v
out:
  ret i64 0
}
