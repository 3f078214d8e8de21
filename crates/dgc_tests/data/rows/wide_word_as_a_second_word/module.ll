define i64 @f(i64 %a) {
entry:
  %q = add sdiv i64 %a, 2
  ret i64 %a
}
