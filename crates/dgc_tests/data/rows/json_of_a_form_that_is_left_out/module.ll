define i64 @f(i64 %n) {
entry:
  %q = sdiv i64 %n, 2
  ret i64 %q
}
