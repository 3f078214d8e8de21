define i8 @f() {
entry:
  %a = sdiv i8 -7, 2
  %b = srem i8 -7, 2
  %c = shl i8 %a, 1
  %d = sub i8 %c, %b
  %e = lshr i8 %d, 1
  %g = ashr i8 %e, 1
  %h = urem i8 %g, 50
  %i = udiv i8 %h, 3
  ret i8 %i
}
