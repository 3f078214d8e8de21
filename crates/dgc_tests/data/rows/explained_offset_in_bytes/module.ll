%Node = type { i64, ptr }
define i64 @b(ptr %n) gc "shadow-stack" {
entry:
  %p = getelementptr i8, ptr %n, i64 4
  %v = load i64, ptr %p
  ret i64 %v
}
