%Node = type { i64, ptr }
define i64 @walk(ptr %n) gc "shadow-stack" {
entry:
  br label %loop
loop:
  %p = phi ptr [ %n, %entry ], [ %q, %loop ]
  %f = getelementptr %Node, ptr %p, i32 0, i32 1
  %q = load ptr, ptr %f
  %c = icmp eq ptr %n, null
  br i1 %c, label %out, label %loop
out:
  ret i64 0
}
