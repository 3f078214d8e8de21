%Node = type { i64, ptr }
%Row = type { i64, [4 x i64] }
@g = global ptr null
declare ptr @dg_alloc(i32)
declare void @dg_safepoint()
declare void @llvm.gcroot(ptr, ptr)
declare ptr @llvm.gcread(ptr, ptr)
declare void @llvm.gcwrite(ptr, ptr, ptr)
define i64 @inc(i64 %x) gc "shadow-stack" {
entry:
  %y = add i64 %x, 1
  ret i64 %y
}
define i64 @twice(i64 %x) gc "shadow-stack" {
entry:
  %y = mul i64 %x, 2
  ret i64 %y
}
define i64 @apply(ptr %closure, i64 %x) gc "shadow-stack" {
entry:
  %p = getelementptr %Node, ptr %closure, i32 0, i32 0
  %tag = load i64, ptr %p
  switch i64 %tag, label %other [ i64 0, label %first i64 1, label %second ]
first:
  %a = call i64 @inc(i64 %x)
  ret i64 %a
second:
  %b = call i64 @twice(i64 %x)
  ret i64 %b
other:
  unreachable
}
