%Node = type { i64, ptr }
declare void @dg_safepoint()
define i64 @count(ptr %list) gc "shadow-stack" {
entry:
  br label %head
head:
  %p = phi ptr [ %list, %entry ], [ %q, %body ]
  %c = icmp eq ptr %p, null
  br i1 %c, label %out, label %body
body:
  %f = getelementptr %Node, ptr %p, i32 0, i32 1
  %q = load ptr, ptr %f
  call void @dg_safepoint()
  br label %head
out:
  ret i64 0
}
