define i64 @f(i64 %a) {
entry:
  %q = add i64 %a, sdiv (i64 4, i64 2)
  ret i64 %q
}
