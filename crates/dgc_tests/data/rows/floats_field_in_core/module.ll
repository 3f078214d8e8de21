%T = type { i64, double }
define void @f() {
entry:
  ret void
}
