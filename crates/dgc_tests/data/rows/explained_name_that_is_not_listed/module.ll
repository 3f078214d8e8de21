%Node = type { i64, ptr }
define void @second(ptr %n) gc "shadow-stack" {
entry:
  %f = getelementptr %Node, ptr %n, i32 0, i32 1
  br label %next
next:
  ret void
}
