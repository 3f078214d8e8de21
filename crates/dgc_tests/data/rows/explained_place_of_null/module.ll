%Node = type { i64, ptr }
define i64 @value() gc "shadow-stack" {
entry:
  %p = getelementptr %Node, ptr null, i32 0, i32 0
  %v = load i64, ptr %p
  ret i64 %v
}
