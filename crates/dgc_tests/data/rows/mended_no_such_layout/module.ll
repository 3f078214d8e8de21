%Node = type { i64, ptr }
declare ptr @dg_alloc(i32)
define i1 @full() gc "shadow-stack" {
entry:
  %x = call ptr @dg_alloc(i32 0)
  %c = icmp eq ptr %x, null
  ret i1 %c
}
