%Node = type { i64, ptr }
define void @begin(i64 %n) gc "shadow-stack" {
entry:
  ret void
}
