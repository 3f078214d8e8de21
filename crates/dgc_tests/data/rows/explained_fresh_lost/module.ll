%Node = type { i64, ptr }
declare ptr @dg_alloc(i32)
declare void @dg_safepoint()
define void @two(ptr %b) gc "shadow-stack" {
entry:
  %x = call ptr @dg_alloc(i32 0)
  %c = icmp eq ptr %x, null
  br i1 %c, label %out, label %ok
ok:
  %f = getelementptr %Node, ptr %x, i32 0, i32 1
  store ptr %x, ptr %f
  store ptr null, ptr %f
  br label %out
out:
  ret void
}
