declare void @put(i64)
define void @f(i64 %x) {
entry:
  call void (i64, ...) @put(i64 %x)
  ret void
}
