%Node = type { i64, ptr }
declare void @dg_safepoint()
define i64 @sum(ptr %n, i64 %k) gc "shadow-stack" {
entry:
  br label %loop
loop:
  %p = getelementptr %Node, ptr %n, i32 0, i32 0
  %v = load i64, ptr %p
  call void @dg_safepoint()
  %c = icmp eq i64 %k, 0
  br i1 %c, label %out, label %loop
out:
  ret i64 %v
}
