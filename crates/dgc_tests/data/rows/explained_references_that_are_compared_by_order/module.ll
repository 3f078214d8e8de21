%Node = type { i64, ptr }
define void @w(ptr %n) {
entry:
  %p = icmp ult ptr %n, null
  ret void
}
