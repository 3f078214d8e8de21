%Node = type { i64, %Node* }
@g = global %Node* null
define i1 @empty() gc "shadow-stack" {
entry:
  %x = load %Node*, %Node** @g
  %c = icmp eq %Node* %x, null
  ret i1 %c
}
