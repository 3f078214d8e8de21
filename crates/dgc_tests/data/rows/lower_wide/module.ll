define i8 @f(i8 %a, i8 %b) {
entry:
  %s = shl nuw i8 %a, %b
  %d = sdiv exact i8 %s, %b
  %z = freeze i8 %d
  ret i8 %z
}
