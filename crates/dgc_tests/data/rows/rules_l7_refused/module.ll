define i64 @eight(i64 %n) {
entry:
  %v = shl i64 %n, 3
  ret i64 %v
}
