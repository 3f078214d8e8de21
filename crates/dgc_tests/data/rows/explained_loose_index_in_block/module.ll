%Row = type { [8 x i64] }
define i64 @at(ptr %r, i64 %i) gc "shadow-stack" {
entry:
  %c = icmp ult i64 %i, 8
  br i1 %c, label %in, label %out
in:
  %p = getelementptr %Row, ptr %r, i32 0, i32 0, i64 %i
  %v = load i64, ptr %p
  ret i64 %v
out:
  ret i64 0
}
