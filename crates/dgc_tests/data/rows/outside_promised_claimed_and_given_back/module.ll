declare ptr @getenv(ptr)
define ptr @f(ptr %p) gc "shadow-stack" {
entry:
  br label %next
next:
  ret ptr %p
}
define void @g() gc "shadow-stack" {
entry:
  %q = call ptr @getenv(ptr null)
  %r = call ptr @f(ptr %q)
  ret void
}
