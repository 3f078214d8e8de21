%Node = type { i64, ptr }
define void @to(ptr %n) gc "shadow-stack" {
entry:
  %p = getelementptr %Node, ptr %n, i32 0, i32 0
  br label %next
next:
  ret void
}
