define i64 @early(i64 %n) {
entry:
  %a = add i64 %b, 1
  %b = add i64 %n, 1
  ret i64 %a
}
