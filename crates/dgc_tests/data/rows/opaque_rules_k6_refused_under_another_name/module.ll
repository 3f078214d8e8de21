%Node = type { i64, ptr }
@g = global ptr null
declare ptr @dg_alloc(i32)
declare void @llvm.gcroot(ptr, ptr)
declare void @llvm.gcwrite(ptr, ptr, ptr)
define void @leak() gc "shadow-stack" {
entry:
  %s = alloca ptr
  call void @llvm.gcroot(ptr %s, ptr null)
  %a = call ptr @dg_alloc(i32 0)
  %c = icmp eq ptr %a, null
  br i1 %c, label %no, label %ok
no:
  ret void
ok:
  store ptr %a, ptr %s
  %y = load ptr, ptr %s
  call void @llvm.gcwrite(ptr %y, ptr null, ptr @g)
  %f = getelementptr %Node, ptr %a, i32 0, i32 1
  store ptr null, ptr %f
  ret void
}
