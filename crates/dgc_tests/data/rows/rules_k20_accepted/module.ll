%Node = type { i64, %Node* }
define void @begin(i64 %n) gc "shadow-stack" {
entry:
  ret void
}
