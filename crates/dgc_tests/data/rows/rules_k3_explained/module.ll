%Node = type { i64, ptr }
declare void @dg_safepoint()
define i64 @read(ptr %n) gc "shadow-stack" {
entry:
  call void @dg_safepoint()
  %p = getelementptr %Node, ptr %n, i32 0, i32 0
  %v = load i64, ptr %p
  ret i64 %v
}
