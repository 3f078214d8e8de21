%Node = type { i64, ptr }
declare void @dg_safepoint()
declare void @llvm.gcroot(ptr, ptr)
define i64 @count(ptr %list) gc "shadow-stack" {
entry:
  %s = alloca ptr
  call void @llvm.gcroot(ptr %s, ptr null)
  br label %head
head:
  %p = phi ptr [ %list, %entry ], [ %r, %body ]
  %c = icmp eq ptr %p, null
  br i1 %c, label %out, label %body
body:
  %f = getelementptr %Node, ptr %p, i32 0, i32 1
  %q = load ptr, ptr %f
  store ptr %q, ptr %s
  call void @dg_safepoint()
  %r = load ptr, ptr %s
  br label %head
out:
  ret i64 0
}
