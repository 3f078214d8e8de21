%Node = type { i64, ptr }
define void @w(ptr %n, i1 %b) gc "shadow-stack" {
entry:
  %f = getelementptr %Node, ptr %n, i32 0, i32 0
  br i1 %b, label %x, label %y
x:
  br label %y
y:
  %p = phi ptr [ %f, %entry ], [ %n, %x ]
  ret void
}
