define i64 @to(i64 %n) {
entry:
  %c = icmp ult i64 %n, 9
  br i1 %c, label %in, label %out
in:
  ret i64 %n
out:
  ret i64 0
}
