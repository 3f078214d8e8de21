@g = global i64 1.0
define void @f() {
entry:
  ret void
}
