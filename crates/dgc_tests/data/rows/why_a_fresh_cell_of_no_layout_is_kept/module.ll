%Node = type { i64, ptr }
declare ptr @dg_alloc(i32)
define i64 @first(i64 %k) gc "shadow-stack" {
entry:
  %n = call ptr @dg_alloc(i32 1)
  %c = icmp eq ptr %n, null
  br i1 %c, label %no, label %ok
no:
  ret i64 0
ok:
  %p = getelementptr %Node, ptr %n, i32 0, i32 0
  store i64 %k, ptr %p
  ret i64 %k
}
