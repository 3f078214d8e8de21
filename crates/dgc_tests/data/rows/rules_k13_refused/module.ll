%Node = type { i64, %Node* }
define i64 @value(%Node* %n) gc "shadow-stack" {
entry:
  %p = getelementptr %Node, %Node* %n, i32 0, i32 0
  %v = load i64, i64* %p
  ret i64 %v
}
define i64 @of(%Node* %n) gc "shadow-stack" {
entry:
  %v = call i64 @value(%Node* %n)
  ret i64 %v
}
