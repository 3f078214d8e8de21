%N = type { i64, ptr }
declare i32 @puts(ptr)
declare ptr @getenv(ptr)
declare ptr @dg_alloc(i32)
declare void @dg_safepoint()
declare void @llvm.gcroot(ptr, ptr)
declare ptr @llvm.gcread(ptr, ptr)
declare void @llvm.gcwrite(ptr, ptr, ptr)
define i32 @f(i1 %c) gc "shadow-stack" {
entry:
  %a = alloca [2 x i8]
  %b = alloca [2 x i8]
  br i1 %c, label %one, label %two
one:
  br label %join
two:
  br label %join
join:
  %s = phi ptr [ %a, %one ], [ %b, %two ]
  %r = call i32 @puts(ptr %s)
  ret i32 0
}
