%A = type { i64 }
%B = type { i64, i64 }
declare ptr @dg_alloc(i32)
define i64 @new() gc "shadow-stack" {
entry:
  %x = call ptr @dg_alloc(i32 1)
  %c = icmp eq ptr %x, null
  br i1 %c, label %none, label %some
none:
  ret i64 0
some:
  %p = getelementptr %B, ptr %x, i32 0, i32 1
  %v = load i64, ptr %p
  ret i64 %v
}
