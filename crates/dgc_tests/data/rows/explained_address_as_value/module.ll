%Node = type { i64, ptr }
define i1 @empty(ptr %n) gc "shadow-stack" {
entry:
  %f = getelementptr %Node, ptr %n, i32 0, i32 1
  %c = icmp eq ptr %f, null
  ret i1 %c
}
