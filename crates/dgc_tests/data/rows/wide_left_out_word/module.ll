define i64 @f(i64 %a) {
entry:
  %q = extractvalue i64 %a, 0
  ret i64 %a
}
