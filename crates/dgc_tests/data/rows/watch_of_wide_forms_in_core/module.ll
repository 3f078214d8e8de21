define i64 @f(i64 %a, i64 %b) {
entry:
  %v = sdiv i64 %a, %b
  ret i64 %v
}
