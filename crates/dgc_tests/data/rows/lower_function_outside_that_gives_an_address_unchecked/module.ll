declare i32 @puts(ptr)
declare ptr @getenv(ptr)
define void @f() gc "shadow-stack" {
entry:
  %p = call ptr @getenv(ptr null)
  %r = call i32 @puts(ptr %p)
  ret void
}
