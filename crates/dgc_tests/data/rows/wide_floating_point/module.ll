define i64 @f(i64 %a) {
entry:
  %q = fdiv double %a, %a
  ret i64 %a
}
