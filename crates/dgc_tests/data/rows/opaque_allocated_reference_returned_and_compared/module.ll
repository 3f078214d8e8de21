%A = type { i64 }
%B = type { i64 }
declare ptr @dg_alloc(i32)
declare void @llvm.gcroot(ptr, ptr)
define ptr @q() gc "shadow-stack" {
0:
  %v = call ptr @dg_alloc(i32 0)
  ret ptr %v
}
define void @f() gc "shadow-stack" {
0:
  %v = call ptr @q()
  %c = icmp eq ptr %v, null
  ret void
}
