%Node = type { i64, ptr }
@g = global ptr null
define i1 @empty() gc "shadow-stack" {
entry:
  %x = load ptr, ptr @g
  %c = icmp eq ptr %x, null
  ret i1 %c
}
