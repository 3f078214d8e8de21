define i64 @f(i32 %a) {
entry:
  %v = sext i32 %a to double
  ret i64 0
}
