%Node = type { i64, ptr }
define void @begin(ptr %n) gc "shadow-stack" {
entry:
  ret void
}
