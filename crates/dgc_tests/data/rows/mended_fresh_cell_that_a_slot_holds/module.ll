%Node = type { i64, ptr }
declare ptr @dg_alloc(i32)
declare void @dg_safepoint()
declare void @llvm.gcroot(ptr, ptr)
declare ptr @llvm.gcread(ptr, ptr)
declare void @llvm.gcwrite(ptr, ptr, ptr)
define i64 @make(i1 %c) gc "shadow-stack" {
entry:
  %s = alloca ptr
  call void @llvm.gcroot(ptr %s, ptr null)
  br label %more
more:
  call void @dg_safepoint()
  %n = call ptr @dg_alloc(i32 0)
  %none = icmp eq ptr %n, null
  br i1 %none, label %more, label %got
got:
  store ptr %n, ptr %s
  br i1 %c, label %then, label %out
then:
  ret i64 1
out:
  ret i64 0
}
