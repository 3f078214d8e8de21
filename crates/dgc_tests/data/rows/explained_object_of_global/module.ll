%Node = type { i64, ptr }
@top = global ptr null
declare void @llvm.gcwrite(ptr, ptr, ptr)
define void @push(ptr %b) gc "shadow-stack" {
entry:
  call void @llvm.gcwrite(ptr %b, ptr %b, ptr @top)
  ret void
}
