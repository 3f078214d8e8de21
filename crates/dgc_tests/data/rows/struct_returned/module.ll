define void @f() {
  ret i64 {}
