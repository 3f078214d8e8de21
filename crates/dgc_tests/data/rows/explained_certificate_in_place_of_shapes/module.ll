%Node = type { i64, ptr }
define void @f() {
entry:
  ret void
}
