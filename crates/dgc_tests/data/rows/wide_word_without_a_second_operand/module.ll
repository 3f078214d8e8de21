define i64 @f(i64 %a) {
entry:
  %q = udiv i64 %a
  ret i64 %a
}
