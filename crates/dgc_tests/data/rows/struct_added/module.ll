define void @f() {
  %x = add i64 { i64 1 }, 1
