%Node = type { i64, ptr }
define i1 @none(ptr %n) gc "shadow-stack" {
entry:
  %c = icmp eq ptr %n, null
  ret i1 %c
}
