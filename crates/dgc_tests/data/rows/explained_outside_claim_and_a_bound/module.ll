%Node = type { i64, ptr }
define void @f(ptr %p, i64 %n) {
entry:
  br label %next
next:
  ret void
}
