%Node = type { i64, ptr }
define void @take(i64 %n) {
entry:
  ret void
}
define void @give(ptr %b) gc "shadow-stack" {
entry:
  call void @take(ptr %b)
  ret void
}
