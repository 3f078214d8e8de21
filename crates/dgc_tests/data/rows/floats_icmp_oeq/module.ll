define i1 @f(i64 %a) {
entry:
  %c = icmp oeq i64 %a, %a
  ret i1 %c
}
