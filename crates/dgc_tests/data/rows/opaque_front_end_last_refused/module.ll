%Node = type { i64, ptr }
%Row = type { i64, [4 x i64] }
@g = global ptr null
declare ptr @dg_alloc(i32)
declare void @dg_safepoint()
declare void @llvm.gcroot(ptr, ptr)
declare ptr @llvm.gcread(ptr, ptr)
declare void @llvm.gcwrite(ptr, ptr, ptr)
define ptr @last(ptr %n) gc "shadow-stack" {
entry:
  %p = getelementptr %Node, ptr %n, i32 0, i32 1
  %x = load ptr, ptr %p
  %c = icmp eq ptr %x, null
  %l = select i1 %c, ptr %n, ptr %x
  %q = getelementptr %Node, ptr %l, i32 0, i32 1
  %y = load ptr, ptr %q
  ret ptr %y
}
