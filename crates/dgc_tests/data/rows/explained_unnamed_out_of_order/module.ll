define i64 @f(i64, i64) {
  %2 = add i64 %0, %1
  ret i64 %2
}
