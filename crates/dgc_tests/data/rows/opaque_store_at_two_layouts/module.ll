%Node = type { i64, ptr }
%Box = type { ptr }
%Two = type { [2 x ptr] }
%Deep = type { i64, { ptr, [2 x ptr] }, ptr }
@g = global ptr null
declare ptr @dg_alloc(i32)
declare void @dg_safepoint()
declare void @llvm.gcroot(ptr, ptr)
declare ptr @llvm.gcread(ptr, ptr)
declare void @llvm.gcwrite(ptr, ptr, ptr)
define void @f(ptr %t, i64 %i) gc "shadow-stack" {
entry:
  %p = getelementptr %Two, ptr %t, i32 0, i32 0, i64 %i
  store ptr null, ptr %p
  ret void
}
