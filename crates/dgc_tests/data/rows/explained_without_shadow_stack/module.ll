%Node = type { i64, ptr }
define void @one(ptr %n) {
entry:
  ret void
}
