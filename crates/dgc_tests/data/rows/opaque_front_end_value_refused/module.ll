%Node = type { i64, ptr }
%Row = type { i64, [4 x i64] }
@g = global ptr null
declare ptr @dg_alloc(i32)
declare void @dg_safepoint()
declare void @llvm.gcroot(ptr, ptr)
declare ptr @llvm.gcread(ptr, ptr)
declare void @llvm.gcwrite(ptr, ptr, ptr)
define i64 @value(ptr %n, i1 %c) gc "shadow-stack" {
entry:
  %t = icmp ne ptr %n, null
  %w = and i1 %t, %c
  br i1 %w, label %in, label %out
in:
  %p = getelementptr %Node, ptr %n, i32 0, i32 0
  %v = load i64, ptr %p
  ret i64 %v
out:
  ret i64 0
}
