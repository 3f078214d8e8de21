%Node = type { i64, ptr }
define void @to(ptr %n) gc "shadow-stack" {
entry:
  br label %next
next:
  %f = getelementptr %Node, ptr %n, i32 0, i32 1
  store ptr null, ptr %f
  ret void
}
