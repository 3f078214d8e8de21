define i64 @one() {
  ret i64 1
}
define i64 @f(i64 %0) {
  call i64 @one()
  %4 = add i64 %0, 1
  ret i64 %4
}
