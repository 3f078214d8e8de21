@g = global i64 0
define void @f() {
entry:
  store i64 1.0, i64* @g
  ret void
}
