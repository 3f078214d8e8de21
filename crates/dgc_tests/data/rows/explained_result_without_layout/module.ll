%Node = type { i64, ptr }
@top = global ptr null
define ptr @get() gc "shadow-stack" {
entry:
  %x = load ptr, ptr @top
  ret ptr %x
}
define i1 @none() gc "shadow-stack" {
entry:
  %x = call ptr @get()
  %c = icmp eq ptr %x, null
  ret i1 %c
}
