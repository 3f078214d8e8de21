%Node = type { i64, ptr }
declare ptr @dg_alloc(i32)
define void @mk(ptr %b) gc "shadow-stack" {
entry:
  %x = call ptr @dg_alloc(i32 0)
  %f = getelementptr %Node, ptr %x, i32 0, i32 1
  store ptr %b, ptr %f
  ret void
}
