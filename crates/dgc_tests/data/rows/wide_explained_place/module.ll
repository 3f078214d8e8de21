define i64 @f(i32 %n) {
entry:
  %a = urem i32 %n, 7
  %v = udiv i64 5, %n
  ret i64 %v
}
