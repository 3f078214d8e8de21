define i64 @f(i32 %n) {
entry:
  %v = udiv i64 5, %n
  ret i64 %v
}
