%Node = type { i64, ptr }
declare ptr @dg_alloc(i32)
declare void @dg_safepoint()
declare void @llvm.gcroot(ptr, ptr)
declare ptr @llvm.gcread(ptr, ptr)
declare void @llvm.gcwrite(ptr, ptr, ptr)
define i64 @last(i64 %k) gc "shadow-stack" {
entry:
  %s = alloca ptr
  call void @llvm.gcroot(ptr %s, ptr null)
  %c = icmp eq i64 %k, 0
  br i1 %c, label %then, label %join
then:
  %r = load ptr, ptr %s
  ret i64 0
join:
  br label %use
use:
  %again.r = load ptr, ptr %s
  %none = icmp eq ptr %again.r, null
  br i1 %none, label %yes, label %no
yes:
  ret i64 1
no:
  ret i64 2
}
