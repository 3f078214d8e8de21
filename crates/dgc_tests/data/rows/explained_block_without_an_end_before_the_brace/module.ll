define void @f(i64 %n) {
  %v = add i64 %n, 1
}
