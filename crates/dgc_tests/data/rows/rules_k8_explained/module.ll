%Node = type { i64, ptr }
define void @keep(ptr %n) gc "shadow-stack" {
entry:
  %s = alloca ptr
  store ptr %n, ptr %s
  ret void
}
