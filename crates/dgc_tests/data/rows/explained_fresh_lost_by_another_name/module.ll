%Node = type { i64, ptr }
@top = global ptr null
declare ptr @dg_alloc(i32)
declare void @llvm.gcroot(ptr, ptr)
declare void @llvm.gcwrite(ptr, ptr, ptr)
define void @two() gc "shadow-stack" {
entry:
  %s = alloca ptr
  call void @llvm.gcroot(ptr %s, ptr null)
  %x = call ptr @dg_alloc(i32 0)
  %c = icmp eq ptr %x, null
  br i1 %c, label %out, label %ok
ok:
  store ptr %x, ptr %s
  call void @llvm.gcwrite(ptr %x, ptr null, ptr @top)
  %y = load ptr, ptr %s
  %f = getelementptr %Node, ptr %y, i32 0, i32 1
  store ptr null, ptr %f
  br label %out
out:
  ret void
}
