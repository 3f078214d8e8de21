define i8 @f0(i8 %a, i8 %b) {
entry:
  %v = urem i8 %a, %b
  ret i8 %v
}
define i64 @f1(i64 %a, i64 %b) {
entry:
  %v = urem i64 %a, %b
  ret i64 %v
}
define i1 @f2(i1 %a, i1 %b) {
entry:
  %v = urem i1 %a, %b
  ret i1 %v
}
