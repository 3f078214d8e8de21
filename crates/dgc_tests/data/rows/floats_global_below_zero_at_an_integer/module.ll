@g = global i64 -5.0e-01
define void @f() {
entry:
  ret void
}
