define i64 @f(i64 %a) {
entry:
  %q = sdiv double %a, %a
  ret i64 %a
}
