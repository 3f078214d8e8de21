%Node = type { i64, %Node* }
define i64 @walk(%Node* %n, i64 %k) gc "shadow-stack" {
entry:
  br label %loop
loop:
  %p = phi %Node* [ %n, %entry ], [ %q, %loop ]
  %f = getelementptr %Node, %Node* %p, i32 0, i32 1
  %q = load %Node*, %Node** %f
  %c = icmp eq %Node* %q, null
  br i1 %c, label %out, label %loop
out:
  ret i64 0
}
