%Node = type { i64, ptr }
%Box = type { ptr }
%Two = type { [2 x ptr] }
%Deep = type { i64, { ptr, [2 x ptr] }, ptr }
@g = global ptr null
declare ptr @dg_alloc(i32)
declare void @dg_safepoint()
declare void @llvm.gcroot(ptr, ptr)
declare ptr @llvm.gcread(ptr, ptr)
declare void @llvm.gcwrite(ptr, ptr, ptr)
define ptr @f(ptr %d) gc "shadow-stack" {
entry:
  %p = getelementptr %Deep, ptr %d, i32 0, i32 2
  %v = load ptr, ptr %p
  ret ptr %v
}
