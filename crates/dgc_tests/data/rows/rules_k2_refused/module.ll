%Node = type { i64, %Node* }
@g = global %Node* null
define i1 @empty() {
entry:
  %c = icmp eq %Node** @g, null
  ret i1 %c
}
