@x = external global i64
define void @f() gc "shadow-stack" {
entry:
  %v = load i64, ptr @x
  ret void
}
