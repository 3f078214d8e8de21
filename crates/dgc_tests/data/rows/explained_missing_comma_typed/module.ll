@count = global i64 0
define i64 @f() {
entry:
  %v = load i64 i64* @count
  ret i64 %v
}
