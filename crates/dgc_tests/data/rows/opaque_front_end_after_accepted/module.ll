%Node = type { i64, ptr }
%Row = type { i64, [4 x i64] }
@g = global ptr null
declare ptr @dg_alloc(i32)
declare void @dg_safepoint()
declare void @llvm.gcroot(ptr, ptr)
declare ptr @llvm.gcread(ptr, ptr)
declare void @llvm.gcwrite(ptr, ptr, ptr)
define ptr @after(ptr %n) gc "shadow-stack" {
entry:
  %f = getelementptr %Node, ptr %n, i32 0, i32 1
  %x = load ptr, ptr %f
  %c = icmp eq ptr %x, null
  br i1 %c, label %none, label %some
none:
  ret ptr null
some:
  %q = getelementptr %Node, ptr %n, i32 0, i32 1
  %y = load ptr, ptr %q
  %w = getelementptr %Node, ptr %x, i32 0, i32 1
  %z = load ptr, ptr %w
  ret ptr %z
}
