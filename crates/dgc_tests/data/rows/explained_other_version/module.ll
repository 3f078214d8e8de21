%Node = type { i64, ptr }
define void @second(ptr %n) gc "shadow-stack" {
entry:
  ret void
}
