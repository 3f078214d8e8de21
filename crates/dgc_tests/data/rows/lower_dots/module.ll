declare void @any(...)
define void @f(i64 %x) {
entry:
  call void (...) @any(i64 %x)
  ret void
}
