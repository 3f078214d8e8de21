%T = type { [65 x i64] }
define void @f() {
entry:
  ret void
}
