%Node = type { i64, ptr }
@top = global ptr null
define i1 @empty() gc "shadow-stack" {
entry:
  %c = icmp eq ptr @top, null
  ret i1 %c
}
