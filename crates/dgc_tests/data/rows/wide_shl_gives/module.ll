define i32 @f0(i32 %a, i32 %b) {
entry:
  %v = shl i32 %a, %b
  ret i32 %v
}
define i8 @f1(i8 %a, i8 %b) {
entry:
  %v = shl nuw nsw i8 %a, %b
  ret i8 %v
}
define i64 @f2(i64 %a, i64 %b) {
entry:
  %v = shl nuw i64 %a, %b
  ret i64 %v
}
define i1 @f3(i1 %a, i1 %b) {
entry:
  %v = shl nsw i1 %a, %b
  ret i1 %v
}
