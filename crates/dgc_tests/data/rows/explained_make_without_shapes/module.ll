%Node = type { i64, ptr }
define void @g(ptr %n) {
entry:
  ret void
}
