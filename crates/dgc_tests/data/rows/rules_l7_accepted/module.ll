define i64 @eight(i64 %n) {
entry:
  %v = mul i64 %n, 8
  ret i64 %v
}
