%Node = type { i64, ptr, [2 x ptr] }
@g = global ptr null
@h = constant ptr null
declare ptr @dg_alloc(i32)
declare void @dg_safepoint()
declare void @llvm.gcroot(ptr, ptr)
declare ptr @llvm.gcread(ptr, ptr)
declare void @llvm.gcwrite(ptr, ptr, ptr)
define ptr @f(ptr %n, i1 %c, i64 %i) gc "shadow-stack" {
entry:
  %s = alloca ptr, align 8
  call void @llvm.gcroot(ptr %s, ptr null)
  %m = bitcast ptr %n to ptr
  %e = icmp eq ptr %n, %m
  %x = select i1 %c, ptr %n, ptr null
  br label %b
b:
  %p = phi ptr [ %n, %entry ], [ undef, %b ]
  %q = getelementptr inbounds %Node, ptr %n, i64 0, i32 2, i64 %i
  %v = load ptr, ptr %q, align 8
  %w = load volatile ptr, ptr bitcast (ptr @g to ptr)
  store ptr %v, ptr %s
  store ptr null, ptr @g
  %y = call ptr @f(ptr %v, i1 true, i64 0)
  br i1 %c, label %b, label %d
d:
  ret ptr zeroinitializer
}
