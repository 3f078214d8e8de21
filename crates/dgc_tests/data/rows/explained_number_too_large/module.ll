define i8 @f(i8 %n) {
entry:
  %v = and i8 %n, 256
  ret i8 %v
}
