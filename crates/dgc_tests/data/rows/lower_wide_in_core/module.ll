define i8 @f(i8 %a) {
entry:
  %s = shl i8 %a, 1
  ret i8 %s
}
