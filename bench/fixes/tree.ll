; kept: %leaf.again %leaf
; undominated: %leaf.again %left
%Tree = type { i64, ptr, ptr }
@root = global ptr null
declare ptr @dg_alloc(i32)
declare void @dg_safepoint()
declare void @llvm.gcroot(ptr, ptr)
declare void @llvm.gcwrite(ptr, ptr, ptr)
define void @run() gc "shadow-stack" {
entry:
  %s = alloca ptr
  call void @llvm.gcroot(ptr %s, ptr null)
  br label %again
again:
  call void @dg_safepoint()
  %leaf = call ptr @dg_alloc(i32 0)
  %none = icmp eq ptr %leaf, null
  br i1 %none, label %again, label %keep
keep:
  store ptr %leaf, ptr %s
  call void @dg_safepoint()
  %tree = load ptr, ptr @root
  %bare = icmp eq ptr %tree, null
  br i1 %bare, label %plant, label %side
side:
  %lp = getelementptr %Tree, ptr %tree, i32 0, i32 1
  %left = load ptr, ptr %lp
  %rp = getelementptr %Tree, ptr %tree, i32 0, i32 2
  call void @llvm.gcwrite(ptr %left, ptr %tree, ptr %rp)
  call void @llvm.gcwrite(ptr null, ptr %tree, ptr %lp)
  br label %again
plant:
  %leaf.again = load ptr, ptr %s
  call void @llvm.gcwrite(ptr %leaf.again, ptr null, ptr @root)
  br label %again
}
