%Node = type { i64, ptr }
define void @take(ptr %a, ptr %b) gc "shadow-stack" {
entry:
  ret void
}
define void @give(ptr %n) gc "shadow-stack" {
entry:
  call void @take(ptr %n)
  ret void
}
