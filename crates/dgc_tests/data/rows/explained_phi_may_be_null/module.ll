%Node = type { i64, ptr }
define i64 @value(ptr %n, i1 %c) gc "shadow-stack" {
entry:
  br i1 %c, label %a, label %b
a:
  br label %b
b:
  %x = phi ptr [ %n, %entry ], [ null, %a ]
  %p = getelementptr %Node, ptr %x, i32 0, i32 0
  %v = load i64, ptr %p
  ret i64 %v
}
