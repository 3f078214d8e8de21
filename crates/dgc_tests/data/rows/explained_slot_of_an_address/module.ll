%Node = type { i64, %Node* }
define void @keep(%Node* %n) gc "shadow-stack" {
entry:
  %s = alloca i64*
  ret void
}
