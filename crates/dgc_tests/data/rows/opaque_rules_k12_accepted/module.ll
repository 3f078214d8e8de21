%Node = type { i64, ptr }
define void @one(ptr %n) gc "shadow-stack" {
entry:
  ret void
}
