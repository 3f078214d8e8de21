%Node = type { i64, ptr }
%Box = type { ptr }
%Two = type { [2 x ptr] }
%Deep = type { i64, { ptr, [2 x ptr] }, ptr }
@g = global ptr null
declare ptr @dg_alloc(i32)
declare void @dg_safepoint()
declare void @llvm.gcroot(ptr, ptr)
declare ptr @llvm.gcread(ptr, ptr)
declare void @llvm.gcwrite(ptr, ptr, ptr)
define void @f(ptr %n) gc "shadow-stack" {
entry:
  %s = alloca ptr
  %r = bitcast ptr %s to ptr
  call void @llvm.gcroot(ptr %r, ptr null)
  store ptr %n, ptr %s
  %v = load ptr, ptr %r
  ret void
}
