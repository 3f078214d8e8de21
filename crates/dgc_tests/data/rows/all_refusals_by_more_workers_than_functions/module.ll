%Node = type { i64, ptr }
declare void @dg_safepoint()
define i64 @f(ptr %n, i64 %k) gc "shadow-stack" {
entry:
  %p = getelementptr %Node, ptr %n, i32 0, i32 0
  %v = load i64, ptr %p
  br label %good
good:
  br label %next
next:
  ret i64 %k
}
define void @g() {
entry:
  ret void
}
define void @h() {
entry:
  call void @dg_safepoint()
  ret void
}
