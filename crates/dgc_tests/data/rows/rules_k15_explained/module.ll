%Node = type { i64, ptr }
define i64 @walk(ptr %n, i64 %k) gc "shadow-stack" {
entry:
  br label %loop
loop:
  %p = phi ptr [ %n, %entry ], [ %q, %loop ]
  %f = getelementptr %Node, ptr %p, i32 0, i32 1
  %q = load ptr, ptr %f
  %c = icmp eq i64 %k, 0
  br i1 %c, label %out, label %loop
out:
  ret i64 0
}
