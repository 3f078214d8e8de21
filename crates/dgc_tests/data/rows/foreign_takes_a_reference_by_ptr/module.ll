%Node = type { i64 }
declare void @keep(ptr)
define void @f(ptr %n) gc "shadow-stack" {
entry:
  call void @keep(ptr %n)
  ret void
}
