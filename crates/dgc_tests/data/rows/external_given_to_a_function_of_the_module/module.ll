%Node = type { i64 }
@x = external global i64
define void @g(ptr %a) gc "shadow-stack" {
entry:
  ret void
}
define void @f() gc "shadow-stack" {
entry:
  call void @g(ptr @x)
  ret void
}
