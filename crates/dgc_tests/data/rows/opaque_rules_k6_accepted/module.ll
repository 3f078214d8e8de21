%Node = type { i64, ptr }
declare void @llvm.gcwrite(ptr, ptr, ptr)
define void @cut(ptr %n) gc "shadow-stack" {
entry:
  %f = getelementptr %Node, ptr %n, i32 0, i32 1
  call void @llvm.gcwrite(ptr null, ptr null, ptr %f)
  ret void
}
