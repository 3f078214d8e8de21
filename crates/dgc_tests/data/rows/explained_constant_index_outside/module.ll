%Row = type { [8 x i64] }
define i64 @at(ptr %r) gc "shadow-stack" {
entry:
  %p = getelementptr %Row, ptr %r, i32 0, i32 0, i64 8
  %v = load i64, ptr %p
  ret i64 %v
}
