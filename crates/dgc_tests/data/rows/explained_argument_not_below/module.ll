%Row = type { [8 x i64] }
define i64 @at(ptr %r, i64 %i) gc "shadow-stack" {
entry:
  %p = getelementptr %Row, ptr %r, i32 0, i32 0, i64 %i
  %v = load i64, ptr %p
  ret i64 %v
}
define i64 @of(ptr %r, i64 %k) gc "shadow-stack" {
entry:
  %v = call i64 @at(ptr %r, i64 %k)
  ret i64 %v
}
