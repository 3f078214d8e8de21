%Node = type { i64, ptr }
@g = global ptr null
define i1 @empty() {
entry:
  %c = icmp eq ptr @g, null
  ret i1 %c
}
