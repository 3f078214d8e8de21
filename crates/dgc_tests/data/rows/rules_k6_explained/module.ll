%Node = type { i64, ptr }
define void @cut(ptr %n) gc "shadow-stack" {
entry:
  %f = getelementptr %Node, ptr %n, i32 0, i32 1
  store ptr null, ptr %f
  ret void
}
