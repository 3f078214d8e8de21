@x = external global i64
define void @f() gc "shadow-stack" {
entry:
  store i64 1, ptr @x
  ret void
}
