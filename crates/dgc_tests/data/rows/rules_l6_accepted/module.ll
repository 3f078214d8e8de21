define i8 @mask(i8 %n) {
entry:
  %v = and i8 %n, 255
  ret i8 %v
}
