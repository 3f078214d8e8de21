%Node = type { i64, ptr }
@count = global i64 0
define i64 @f(i64 %n, ptr %p) {
entry:
  br label %out
out:
  ret i64 %n
}
