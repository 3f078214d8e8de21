declare i8* @malloc(i64)
define void @f() gc "shadow-stack" {
entry:
  %p = call i8* @malloc(i64 8)
  ret void
}
