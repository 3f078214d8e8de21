define i1 @f(i64 %a) {
entry:
  %c = fcmp oeq i64 %a, 1
  ret i1 %c
}
