%Node = type { i64, ptr }
define void @keep(ptr %n) gc "shadow-stack" {
entry:
  ret void
}
