@g = global i64 0
define void @f() {
  store i64 [1], i64* @g
