%Node = type { i64, ptr }
declare void @llvm.gcwrite(ptr, ptr, ptr)
define void @link(ptr %a, ptr %b) gc "shadow-stack" {
entry:
  %f = getelementptr %Node, ptr %a, i32 0, i32 1
  call void @llvm.gcwrite(ptr %b, ptr %b, ptr %f)
  ret void
}
