define i64 @f(i64 %a) {
entry:
  %q = shl foo i64 %a, 1
  ret i64 %a
}
