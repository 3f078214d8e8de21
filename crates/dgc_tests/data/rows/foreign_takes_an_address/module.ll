%Node = type { i64, %Node* }
declare void @take(i64*)
define void @f(%Node* %n) gc "shadow-stack" {
entry:
  %p = getelementptr %Node, %Node* %n, i32 0, i32 0
  call void @take(i64* %p)
  ret void
}
