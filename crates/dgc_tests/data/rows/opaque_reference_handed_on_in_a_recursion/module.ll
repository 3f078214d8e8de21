%A = type { i64 }
%B = type { i64 }
declare ptr @dg_alloc(i32)
declare void @llvm.gcroot(ptr, ptr)
define void @h1() gc "shadow-stack" {
0:
  %v = call ptr @dg_alloc(i32 1)
  call void @h2(ptr %v)
  ret void
}
define void @h2(ptr %p) gc "shadow-stack" {
0:
  call void @h2(ptr %p)
  ret void
}
