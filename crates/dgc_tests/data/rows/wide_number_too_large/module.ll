define i64 @f(i64 %a) {
entry:
  %q = urem i8 256, 3
  ret i64 %a
}
