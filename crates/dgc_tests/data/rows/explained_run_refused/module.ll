%Node = type { i64, ptr }
@top = global ptr null
declare void @llvm.gcwrite(ptr, ptr, ptr)
define void @put(ptr %n) gc "shadow-stack" {
entry:
  store ptr %n, ptr @top
  ret void
}
define void @main() gc "shadow-stack" {
entry:
  call void @put(ptr null)
  ret void
}
