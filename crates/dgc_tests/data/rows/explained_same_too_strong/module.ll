%Node = type { i64, ptr }
define void @to(ptr %n, ptr %m) gc "shadow-stack" {
entry:
  br label %next
next:
  ret void
}
