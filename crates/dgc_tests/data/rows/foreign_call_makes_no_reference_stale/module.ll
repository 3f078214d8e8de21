%Node = type { i64, %Node* }
declare i64 @next()
define i64 @f(%Node* %n) gc "shadow-stack" {
entry:
  %v = call i64 @next()
  br label %b
b:
  %p = getelementptr %Node, %Node* %n, i32 0, i32 0
  %w = load i64, i64* %p
  ret i64 %w
}
