define i64 @f(i64 %0) {
  ret i64 %0
}
@g = dso_local alias i64 (i64), i64 (i64)* @f
