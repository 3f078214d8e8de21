%Node = type { i64, ptr }
declare void @dg_safepoint()
define void @take(ptr %n) gc "shadow-stack" {
entry:
  ret void
}
define void @give(ptr %n) gc "shadow-stack" {
entry:
  call void @dg_safepoint()
  call void @take(ptr %n)
  ret void
}
